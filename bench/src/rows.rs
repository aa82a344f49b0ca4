//! The rows of the table.

use std::fmt::{self, Write as _};
use std::hint::black_box;

use crate::input::{Input, Shape};
use crate::ours::{self, Build, Form, Question, Work};
use crate::timing::{Settings, nanoseconds_of, nanoseconds_of_call, nanoseconds_of_each};
use crate::{chain, tree};

/// What one size takes in nanoseconds: ours, and a measurement of the Rust.
struct Measured<'a> {
    ours: f64,
    rust: Box<dyn Fn() -> f64 + 'a>,
}

/// A size, and the one that is half or twice as large.
#[derive(Clone, Copy)]
struct Sizes {
    shown: usize,
    other: usize,
}

const fn twice(shown: usize) -> Sizes {
    Sizes { shown, other: 2 * shown }
}

const fn half(shown: usize) -> Sizes {
    Sizes { shown, other: shown / 2 }
}

/// Frames of a report. A store holds 1,024, so the largest is compared with its half.
const FRAMES: [Sizes; 3] = [twice(5), twice(60), half(1_000)];
/// Reports of a basket.
const BASKET: [Sizes; 4] = [twice(2), twice(10), twice(100), half(1_000)];
/// Native sources of one error. A host has 65,536 errors, so the largest is compared with its half.
const SOURCES: [Sizes; 5] = [twice(10), twice(100), twice(1_000), twice(10_000), half(60_000)];

/// How many values are made at a time for an operation that takes one.
fn batch(input: &Input) -> usize {
    (20_000 / input.nodes.len()).clamp(1, 1_000)
}

/// An operation on a report or a chain: what both sides answer, where they can be compared, and what it takes.
struct Operation {
    name: &'static str,
    answers: fn(&Input) -> (String, String),
    ours: fn(Settings, &Input) -> f64,
    rust: fn(Settings, &Input) -> f64,
}

fn ask_report(settings: Settings, input: &Input, question: Question) -> f64 {
    nanoseconds_of_call(settings, |repeats| ours::report(input, question, repeats))
}

fn ask_tree<T>(settings: Settings, input: &Input, question: fn(&tree::Report) -> T) -> f64 {
    let report = tree::errors::report(input);
    nanoseconds_of(settings, || question(black_box(&report)))
}

fn work_on_chain(settings: Settings, input: &Input, work: Work) -> f64 {
    nanoseconds_of_call(settings, |repeats| ours::chain(input, work, repeats))
}

fn ask_chain<T>(settings: Settings, input: &Input, question: fn(&chain::Error) -> T) -> f64 {
    let error = chain::errors::report(input).into_error();
    nanoseconds_of(settings, || question(black_box(&error)))
}

/// The text of the error that the library names as a cause.
fn cause_text(input: &Input, answer: u64) -> String {
    let error = u16::try_from(answer - 1).expect("the question is answered");
    input.text(error).to_owned()
}

/// What the library prints into a buffer of so many bytes.
fn printed(input: &Input, form: Form, len: usize) -> String {
    let mut out = vec![0; len];
    let printed = ours::print(input, form, &mut out, 1) as usize;
    String::from_utf8(out[..printed].to_vec()).expect("prints are UTF-8")
}

/// The buffer is as long as the print, and is not cleared.
fn print(settings: Settings, input: &Input, form: Form) -> f64 {
    let mut out = vec![0; print_len(input, form)];
    nanoseconds_of_call(settings, |repeats| ours::print(input, form, &mut out, repeats))
}

fn print_len(input: &Input, form: Form) -> usize {
    let mut out = vec![0; input.texts.len() + 300 * input.nodes.len()];
    ours::print(input, form, &mut out, 1) as usize
}

/// The Rust prints into a string that is kept, and whose length is set to 0 before.
fn print_rust<T>(settings: Settings, printed: &T, write: fn(&mut String, &T) -> fmt::Result) -> f64 {
    let mut text = String::new();
    nanoseconds_of(settings, || {
        text.clear();
        write(&mut text, black_box(printed)).expect("a string takes every text");
        text.len()
    })
}

const OPERATIONS: [Operation; 12] = [
    Operation {
        name: "class of a report",
        answers: |input| {
            let class = tree::errors::report(input).dominant_class();
            (ours::report(input, Question::Class, 1).to_string(), tree::errors::class_number(class).to_string())
        },
        ours: |settings, input| ask_report(settings, input, Question::Class),
        rust: |settings, input| ask_tree(settings, input, |report| report.dominant_class()),
    },
    Operation {
        name: "retry of a report",
        answers: |input| {
            let verdict = tree::errors::report(input).can_retry();
            (ours::report(input, Question::Retry, 1).to_string(), (1 + u64::from(verdict)).to_string())
        },
        ours: |settings, input| ask_report(settings, input, Question::Retry),
        rust: |settings, input| ask_tree(settings, input, |report| report.can_retry()),
    },
    Operation {
        name: "cause of a report",
        answers: |input| {
            let report = tree::errors::report(input);
            (cause_text(input, ours::report(input, Question::Cause, 1)), report.probable_cause().to_string())
        },
        ours: |settings, input| ask_report(settings, input, Question::Cause),
        rust: |settings, input| ask_tree(settings, input, |report| std::ptr::from_ref(report.probable_cause())),
    },
    Operation {
        name: "class of a chain",
        answers: |input| {
            let class = chain::errors::report(input).into_error().dominant_class();
            (ours::chain(input, Work::Class, 1).to_string(), chain::errors::class_number(class).to_string())
        },
        ours: |settings, input| work_on_chain(settings, input, Work::Class),
        rust: |settings, input| ask_chain(settings, input, |error| error.dominant_class()),
    },
    Operation {
        name: "retry of a chain",
        answers: |input| {
            let verdict = chain::errors::report(input).into_error().can_retry();
            (ours::chain(input, Work::Retry, 1).to_string(), (1 + u64::from(verdict)).to_string())
        },
        ours: |settings, input| work_on_chain(settings, input, Work::Retry),
        rust: |settings, input| ask_chain(settings, input, |error| error.can_retry()),
    },
    Operation {
        name: "cause of a chain",
        answers: |input| {
            let error = chain::errors::report(input).into_error();
            (cause_text(input, ours::chain(input, Work::Cause, 1)), error.probable_cause().to_string())
        },
        ours: |settings, input| work_on_chain(settings, input, Work::Cause),
        rust: |settings, input| ask_chain(settings, input, |error| std::ptr::from_ref(error.probable_cause())),
    },
    Operation {
        name: "flatten",
        answers: |input| (ours::chain(input, Work::RoundTrip, 1).to_string(), input.nodes.len().to_string()),
        // there and back, less the way back
        ours: |settings, input| {
            let there_and_back = work_on_chain(settings, input, Work::RoundTrip);
            there_and_back - work_on_chain(settings, input, Work::Rebuild)
        },
        rust: |settings, input| {
            nanoseconds_of_each(settings, batch(input), || chain::errors::report(input), |report| report.into_error())
        },
    },
    Operation {
        name: "rebuild",
        answers: |input| (ours::chain(input, Work::Rebuild, 1).to_string(), (1_024 - input.frames.len()).to_string()),
        ours: |settings, input| work_on_chain(settings, input, Work::Rebuild),
        rust: |settings, input| {
            let make = || chain::errors::report(input).into_error();
            nanoseconds_of_each(settings, batch(input), make, |error| error.into_exn())
        },
    },
    Operation {
        name: "rebuild and flatten",
        answers: |input| (ours::chain(input, Work::RoundTrip, 1).to_string(), input.nodes.len().to_string()),
        ours: |settings, input| work_on_chain(settings, input, Work::RoundTrip),
        rust: |settings, input| {
            let make = || chain::errors::report(input).into_error();
            nanoseconds_of_each(settings, batch(input), make, |error| error.into_exn().into_error())
        },
    },
    Operation {
        name: "print a tree",
        answers: |input| {
            let rust = format!("{:?}", tree::errors::report(input));
            (printed(input, Form::Tree, rust.len()), rust)
        },
        ours: |settings, input| print(settings, input, Form::Tree),
        rust: |settings, input| {
            print_rust(settings, &tree::errors::report(input), |text, report| write!(text, "{report:?}"))
        },
    },
    Operation {
        name: "print a chain",
        answers: |input| {
            let rust = format!("{:?}", chain::errors::report(input).into_error());
            (printed(input, Form::Lines, rust.len()), rust)
        },
        ours: |settings, input| print(settings, input, Form::Lines),
        rust: |settings, input| {
            let error = chain::errors::report(input).into_error();
            print_rust(settings, &error, |text, error| write!(text, "{error:?}"))
        },
    },
    Operation {
        name: "print on one line",
        answers: |input| {
            let rust = format!("{:#}", chain::errors::report(input).into_error());
            (printed(input, Form::Inline, rust.len()), rust)
        },
        ours: |settings, input| print(settings, input, Form::Inline),
        rust: |settings, input| {
            let error = chain::errors::report(input).into_error();
            print_rust(settings, &error, |text, error| write!(text, "{error:#}"))
        },
    },
];

/// The largest inputs of which the answers are compared; the Rust's take too long above.
const COMPARED: usize = 3_000;

fn work(settings: Settings, operation: &Operation, shape: Shape, size: usize) -> Measured<'_> {
    let input = Input::new(shape, size);
    if input.nodes.len() <= COMPARED {
        let (ours, rust) = (operation.answers)(&input);
        assert_eq!(ours, rust, "{} of {} nodes", operation.name, input.nodes.len());
    }
    Measured { ours: (operation.ours)(settings, &input), rust: Box::new(move || (operation.rust)(settings, &input)) }
}

/// Calls that build, with the Rust's drop of the report, and without.
struct Building {
    name: &'static str,
    without_drop: &'static str,
    build: Build,
    rust: fn(usize) -> tree::Built,
    sizes: &'static [Sizes],
}

const BUILDING: [Building; 3] = [
    Building {
        name: "raise",
        without_drop: "raise, without drop",
        build: Build::Raises,
        rust: tree::raises,
        sizes: &FRAMES,
    },
    Building {
        name: "join",
        without_drop: "join, without drop",
        build: Build::Joins,
        rust: tree::joins,
        sizes: &FRAMES,
    },
    Building {
        name: "raise_all",
        without_drop: "raise_all, without drop",
        build: Build::RaiseAll,
        rust: tree::raise_all,
        sizes: &BASKET,
    },
];

fn building<'a>(settings: Settings, of: &'a Building, input: &Input, size: usize, with_drop: bool) -> Measured<'a> {
    let left = 1_023 - size as u64;
    assert_eq!(ours::building(input, of.build, size, 3), 3 * left, "every call is granted");
    Measured {
        ours: nanoseconds_of_call(settings, |repeats| ours::building(input, of.build, size, repeats)),
        rust: Box::new(move || {
            if with_drop {
                nanoseconds_of(settings, || (of.rust)(black_box(size)))
            } else {
                nanoseconds_of_each(settings, (20_000 / size).max(1), || size, of.rust)
            }
        }),
    }
}

fn print_head() {
    println!(
        "{:<24} {:<8} {:>6} {:>12} {:>14} {:>9} {:>7} {:>7}",
        "operation", "shape", "size", "ours ns", "Rust ns", "ratio", "growth", "Rust's"
    );
}

/// Where the Rust takes longer than this, in nanoseconds, its growth is not measured.
const LONG: f64 = 5e8;

fn print_row<'a>(name: &str, shape: &str, sizes: Sizes, at: impl Fn(usize) -> Measured<'a>) {
    let (shown, other) = (at(sizes.shown), at(sizes.other));
    let rust = (shown.rust)();
    let growth = |shown: f64, other: f64| if sizes.other > sizes.shown { other / shown } else { shown / other };
    let rust_growth = if rust > LONG { "-".to_owned() } else { format!("{:.2}", growth(rust, (other.rust)())) };
    println!(
        "{:<24} {:<8} {:>6} {:>12.1} {:>14.1} {:>9.2} {:>7.2} {:>7}",
        name,
        shape,
        sizes.shown,
        shown.ours,
        rust,
        rust / shown.ours,
        growth(shown.ours, other.ours),
        rust_growth,
    );
}

/// The rows whose operation begins with one of the words, all where there are none, up to a size.
pub fn print_all(settings: Settings, words: &[String], most: usize) {
    let wanted = |name: &str| words.is_empty() || words.iter().any(|word| name.starts_with(word));
    let small = |sizes: &&Sizes| sizes.shown <= most;
    print_head();
    let message = Input::of_one_message();
    for of in &BUILDING {
        for (name, with_drop) in [(of.name, true), (of.without_drop, false)] {
            for sizes in of.sizes.iter().filter(small).filter(|_| wanted(name)) {
                print_row(name, "", *sizes, |size| building(settings, of, &message, size, with_drop));
            }
        }
    }
    for operation in OPERATIONS.iter().filter(|operation| wanted(operation.name)) {
        for shape in [Shape::Chain, Shape::Wide, Shape::Mixed, Shape::Sources] {
            let sizes: &[Sizes] = if shape == Shape::Sources { &SOURCES } else { &FRAMES };
            for sizes in sizes.iter().filter(small) {
                print_row(operation.name, shape.name(), *sizes, |size| work(settings, operation, shape, size));
            }
        }
    }
}
