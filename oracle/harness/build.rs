//! Writes the call sites at which frames are made, each on a line of its own.
//!
//! The crate keeps the caller's location with each frame. With one site for each frame of a run, a location says
//! which frame it is, also after the frame has gone into a chain and back.

use std::fmt::Write as _;
use std::{env, fs, path::Path};

const SITES: usize = 4_096;

fn main() {
    let mut sites = format!("pub static SITES: [Site; {SITES}] = [\n");
    for _ in 0..SITES {
        writeln!(sites, "|join, error| join.with(error),").expect("a string takes every text");
    }
    sites.push_str("];\n");
    let directory = env::var("OUT_DIR").expect("cargo names the output directory");
    fs::write(Path::new(&directory).join("sites.rs"), sites).expect("the output directory can be written");
    println!("cargo:rerun-if-changed=build.rs");
}
