//! Real Rust errors and reports made from the rows of an input. This file is a module of each build of the crate, which is
//! `super::gix_error`.

use std::error::Error;
use std::{fmt, io};

use super::gix_error::{Class, ClassificationMarker, Exn, Message, ResourceExhaustionKind};
use crate::input::{IO, Input, MARKER, MESSAGE, NONE, PLAIN, io_kind};

type Boxed = Box<dyn Error + Send + Sync + 'static>;

/// An error of no known type, with a text and perhaps a source.
#[derive(Debug)]
pub struct Plain {
    pub text: String,
    pub source: Option<Boxed>,
}

impl fmt::Display for Plain {
    fn fmt(&self, f: &mut fmt::Formatter<'_>) -> fmt::Result {
        f.write_str(&self.text)
    }
}

impl Error for Plain {
    fn source(&self) -> Option<&(dyn Error + 'static)> {
        self.source.as_deref().map(|source| source as _)
    }
}

/// A report by the type of its root's error: the crate keeps that type, and boxes the error once more only where it is erased.
pub enum Report {
    Plain(Exn<Plain>),
    Message(Exn<Message>),
    Marker(Exn<ClassificationMarker>),
    Io(Exn<io::Error>),
}

impl Report {
    /// Joins a report to the root of this one.
    fn chain(self, child: Report) -> Report {
        match child {
            Report::Plain(child) => self.chain_typed(child),
            Report::Message(child) => self.chain_typed(child),
            Report::Marker(child) => self.chain_typed(child),
            Report::Io(child) => self.chain_typed(child),
        }
    }

    fn chain_typed<C: Error + Send + Sync + 'static>(self, child: Exn<C>) -> Report {
        match self {
            Report::Plain(root) => Report::Plain(root.chain(child)),
            Report::Message(root) => Report::Message(root.chain(child)),
            Report::Marker(root) => Report::Marker(root.chain(child)),
            Report::Io(root) => Report::Io(root.chain(child)),
        }
    }
}

/// One error by its type.
enum Built {
    Plain(Plain),
    Message(Message),
    Marker(ClassificationMarker),
    Io(io::Error),
}

impl Built {
    fn boxed(self) -> Boxed {
        match self {
            Built::Plain(error) => Box::new(error),
            Built::Message(error) => Box::new(error),
            Built::Marker(error) => Box::new(error),
            Built::Io(error) => Box::new(error),
        }
    }

    fn report(self) -> Report {
        match self {
            Built::Plain(error) => Report::Plain(Exn::new(error)),
            Built::Message(error) => Report::Message(Exn::new(error)),
            Built::Marker(error) => Report::Marker(Exn::new(error)),
            Built::Io(error) => Report::Io(Exn::new(error)),
        }
    }
}

pub fn class(rank: u8) -> Class {
    match rank {
        0 => Class::Cancelled,
        1 => Class::Corruption,
        2 => Class::ResourceExhaustion(ResourceExhaustionKind::AllocationLimit),
        3 => Class::ResourceExhaustion(ResourceExhaustionKind::AllocationFailure),
        4 => Class::Validation,
        5 => Class::Unsupported,
        6 => Class::Unauthenticated,
        7 => Class::PermissionDenied,
        8 => Class::Conflict,
        9 => Class::NotFound,
        _ => Class::Retryable,
    }
}

/// The error of a number around the error that is its source.
fn around(input: &Input, number: u16, source: Option<Built>) -> Built {
    let row = input.errors[usize::from(number)];
    let text = input.text(number).to_owned();
    match (row.kind, source) {
        (PLAIN, source) => Built::Plain(Plain { text, source: source.map(Built::boxed) }),
        (MESSAGE, _) if row.detail == 255 => Built::Message(Message::new(text)),
        (MESSAGE, _) => Built::Message(Message::new(text).with_class(class(row.detail))),
        (MARKER, None) => Built::Marker(ClassificationMarker::with_class(class(row.detail))),
        (MARKER, Some(Built::Plain(error))) => {
            Built::Marker(ClassificationMarker::with_source(class(row.detail), error))
        }
        (MARKER, Some(Built::Message(error))) => {
            Built::Marker(ClassificationMarker::with_source(class(row.detail), error))
        }
        (MARKER, Some(Built::Marker(error))) => {
            Built::Marker(ClassificationMarker::with_source(class(row.detail), error))
        }
        (MARKER, Some(Built::Io(error))) => Built::Marker(ClassificationMarker::with_source(class(row.detail), error)),
        (IO, None) => Built::Io(io::Error::from(io_kind(row.detail))),
        (IO, Some(payload)) => Built::Io(io::Error::new(io_kind(row.detail), payload.boxed())),
        _ => unreachable!("no other kinds are made"),
    }
}

/// The error of a number with all its sources.
fn build(input: &Input, number: u16) -> Built {
    let mut numbers = vec![number];
    let mut source = input.errors[usize::from(number)].source;
    while source != NONE {
        numbers.push(source as u16);
        source = input.errors[source as usize].source;
    }
    let mut built = None;
    for number in numbers.into_iter().rev() {
        built = Some(around(input, number, built));
    }
    built.expect("there is one error at least")
}

/// The report of an input, built from the last frame to the first. Its root is a plain error.
pub fn report(input: &Input) -> Exn<Plain> {
    let mut children: Vec<Vec<Report>> = input.frames.iter().map(|_| Vec::new()).collect();
    for (i, frame) in input.frames.iter().enumerate().rev() {
        let mut report = build(input, frame.error).report();
        while let Some(child) = children[i].pop() {
            report = report.chain(child);
        }
        match (frame.parent, report) {
            (Some(parent), report) => children[parent].push(report),
            (None, Report::Plain(report)) => return report,
            (None, _) => break,
        }
    }
    unreachable!("the root is a plain error")
}

/// A class as the library's boundary numbers it.
pub fn class_number(found: Option<Class>) -> u64 {
    found.map_or(1, |found| (0..11).position(|rank| class(rank) == found).expect("every class has a rank") as u64 + 2)
}
