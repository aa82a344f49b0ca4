//! Measures the library beside the Rust crate and prints a table.

mod chain;
mod input;
mod ours;
mod rows;
mod timing;
mod tree;

use std::env;
use std::time::Duration;

use timing::Settings;

fn main() {
    let (flags, words): (Vec<String>, Vec<String>) = env::args().skip(1).partition(|word| word.starts_with("--"));
    let quick = flags.iter().any(|flag| flag == "--quick");
    let settings =
        Settings { least: Duration::from_millis(if quick { 2 } else { 20 }), count: if quick { 3 } else { 7 } };
    let most = flags.iter().find_map(|flag| flag.strip_prefix("--most=")?.parse().ok());
    rows::print_all(settings, &words, most.unwrap_or(usize::MAX));
}
