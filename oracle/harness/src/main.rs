//! Reads cases and prints the answers of one build of the crate, each line with the type that gave it.
//!
//! `oracle/run` joins the answers of the two builds.

mod answers;
mod errors;
mod identity;
mod prints;
mod readings;
mod world;
mod write;

use std::io::{Read, Write};
use std::process::ExitCode;

/// Errors with long source chains are dropped by recursion.
const STACK: usize = 1 << 30;

fn main() -> ExitCode {
    let path = std::env::args().nth(1);
    let worker = std::thread::Builder::new().stack_size(STACK).spawn(move || run(path.as_deref()));
    match worker.expect("a thread can be started").join() {
        Ok(Ok(())) => ExitCode::SUCCESS,
        Ok(Err(why)) => {
            eprintln!("{why}");
            ExitCode::FAILURE
        }
        Err(_) => ExitCode::FAILURE,
    }
}

fn run(path: Option<&str>) -> Result<(), String> {
    let mut out = std::io::BufWriter::new(std::io::stdout().lock());
    for case in cases::parse::cases(&read(path)?)? {
        let answers = answers::of_case(&case)?;
        out.write_all(write::case(&case, &answers).as_bytes()).map_err(|why| why.to_string())?;
    }
    out.flush().map_err(|why| why.to_string())
}

fn read(path: Option<&str>) -> Result<String, String> {
    let mut file = String::new();
    match path {
        Some(path) => file = std::fs::read_to_string(path).map_err(|why| format!("{path}: {why}"))?,
        None => {
            std::io::stdin().read_to_string(&mut file).map_err(|why| why.to_string())?;
        }
    }
    Ok(file)
}
