//! What the case format cannot say: printed places, nested reports, and how places are shortened.
//!
//! usage: beyond paths | places | stack LENGTH

use std::error::Error as StdError;
use std::fmt;

use gix_error::{Class, ClassificationMarker, Error, Exn, Message};

#[allow(dead_code, unexpected_cfgs)]
mod location {
    include!("../../target/gix-error/src/location.rs");

    /// Package and source of a file name.
    pub fn parts(file: &str) -> (&str, &str) {
        local_path(file)
    }
}

/// File names whose package or version is not told as the documentation has it, after one that is.
const FILES: [&str; 9] = [
    "/home/user/.cargo/registry/src/index.crates.io-hash/gix-url-0.39.0/src/parse.rs",
    "registry/src/index.crates.io-hash/gix-url-0.39.0/src/parse.rs",
    r"C:\Users\user\.cargo\registry/src/index.crates.io-hash\gix-url-0.39.0\src\parse.rs",
    "/home/user/.cargo/registry/src/index.crates.io-hash/store-1.2.3/registry/src/disk/mod.rs",
    "/home/user/.cargo/registry/src/index.crates.io-hash/store-1.2.3/src/registry/src/mod.rs",
    "/work/registry/src/lib.rs",
    "/work/registry/tests/all.rs",
    "/work/registry/examples/all.rs",
    "/work/registry/benches/all.rs",
];

fn main() {
    let words: Vec<String> = std::env::args().skip(1).collect();
    let words: Vec<&str> = words.iter().map(String::as_str).collect();
    match words[..] {
        ["paths"] => paths(),
        ["places"] => places(),
        ["stack", length] => stack(length.parse().expect("a length is a number")),
        _ => eprintln!("usage: beyond paths | places | stack LENGTH"),
    }
}

fn paths() {
    for file in FILES {
        let (package, source) = location::parts(file);
        println!("{file}\n    package `{package}` source `{source}`");
    }
}

/// Reports with a native source, and of markers alone once and twice within another.
fn places() {
    let owner = Chained { text: "owner", source: Some(Box::new(Chained { text: "source", source: None })) };
    show("an error with a native source", Exn::new(owner).into_error());
    let alone = || Exn::new(ClassificationMarker::with_class(Class::Cancelled)).into_error();
    show("a marker alone", alone());
    show("a marker alone, nested", Exn::new(alone()).into_error());
    show("a marker alone, nested twice", Exn::new(Exn::new(alone()).into_error()).into_error());
    let message = Exn::new(Message::new("message")).into_error();
    show("a message, nested", Exn::new(message).into_error());
}

fn show(what: &str, error: Error) {
    println!("{what}\n    {}", format!("{error:?}").replace('\n', "\n    "));
}

/// Print the tree of a source chain with the stack that a program's main thread usually has.
fn stack(length: usize) {
    let chain = (1..length).fold(Chained { text: "bottom", source: None }, |source, _| Chained {
        text: "level",
        source: Some(Box::new(source)),
    });
    let exn = Exn::new(chain);
    let printer = std::thread::Builder::new().stack_size(8 << 20).spawn(move || {
        let printed = format!("{exn:?}").len();
        // Dropping the chain would use the stack as well, and it is not the crate's to drop.
        std::mem::forget(exn);
        printed
    });
    let printed = printer.expect("a thread can be started").join().expect("the print ends");
    println!("{length} errors: {printed} bytes");
}

#[derive(Debug)]
struct Chained {
    text: &'static str,
    source: Option<Box<Chained>>,
}

impl fmt::Display for Chained {
    fn fmt(&self, f: &mut fmt::Formatter<'_>) -> fmt::Result {
        f.write_str(self.text)
    }
}

impl StdError for Chained {
    fn source(&self) -> Option<&(dyn StdError + 'static)> {
        self.source.as_deref().map(|source| source as _)
    }
}
