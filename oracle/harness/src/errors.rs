//! Real Rust errors made from what a host tells.

use std::collections::TryReserveError;
use std::error::Error;
use std::fmt;
use std::io;

use cases::host::{ErrorNumber, Host, Kind, Meaning};
use cases::names::{CLASSES, IO_KINDS, IoKind, Rank};
use gix_error::{Class, ClassificationMarker, Message, ResourceExhaustionKind};

type Boxed = Box<dyn Error + Send + Sync + 'static>;

/// An error of no known type, with a text and perhaps a source.
#[derive(Debug)]
pub struct Plain {
    text: String,
    source: Option<Boxed>,
}

impl fmt::Display for Plain {
    fn fmt(&self, f: &mut fmt::Formatter<'_>) -> fmt::Result {
        f.write_str(&self.text)
    }
}

impl Error for Plain {
    fn source(&self) -> Option<&(dyn Error + 'static)> {
        self.source.as_deref().map(|source| source as _)
    }
}

/// One error by its concrete type.
pub enum Built {
    Plain(Plain),
    Message(Message),
    Marker(ClassificationMarker),
    Reserve(TryReserveError),
    Io(io::Error),
}

/// Whose texts the errors display.
#[derive(Clone, Copy, Debug, Eq, PartialEq)]
pub enum Texts {
    /// Those of the Rust types.
    Rust,
    /// Those of the host: io errors without payload and reservation failures are replaced by plain errors.
    /// A print shows of these nothing but their text.
    Host,
}

/// Make the error `number` of `host` with all its sources.
pub fn build(host: &Host, number: ErrorNumber, texts: Texts) -> Built {
    let mut built = None;
    for number in host.source_chain(number).into_iter().rev() {
        let meaning = host.meaning(number).expect("sources of a live error are live");
        built = Some(around(meaning, built, texts));
    }
    built.expect("a live error begins its own source chain")
}

fn around(meaning: &Meaning, source: Option<Built>, texts: Texts) -> Built {
    let stand_in = texts == Texts::Host && source.is_none();
    match meaning.kind {
        Kind::Io(_) | Kind::Reserve if stand_in => Built::Plain(Plain { text: meaning.text.clone(), source: None }),
        Kind::Plain => Built::Plain(Plain { text: meaning.text.clone(), source: source.map(Built::boxed) }),
        Kind::Message(rank) => Built::Message(message(meaning.text.clone(), rank)),
        Kind::Marker(rank) => Built::Marker(marker(class(rank), source)),
        Kind::Reserve => Built::Reserve(reservation_failure()),
        Kind::Io(kind) => Built::Io(io_error(io_kind(kind), source)),
    }
}

fn message(text: String, rank: Option<Rank>) -> Message {
    match rank {
        Some(rank) => Message::new(text).with_class(class(rank)),
        None => Message::new(text),
    }
}

fn marker(class: Class, source: Option<Built>) -> ClassificationMarker {
    match source {
        None => ClassificationMarker::with_class(class),
        Some(Built::Plain(error)) => ClassificationMarker::with_source(class, error),
        Some(Built::Message(error)) => ClassificationMarker::with_source(class, error),
        Some(Built::Marker(error)) => ClassificationMarker::with_source(class, error),
        Some(Built::Reserve(error)) => ClassificationMarker::with_source(class, error),
        Some(Built::Io(error)) => ClassificationMarker::with_source(class, error),
    }
}

fn io_error(kind: io::ErrorKind, payload: Option<Built>) -> io::Error {
    match payload {
        Some(payload) => io::Error::new(kind, payload.boxed()),
        None => io::Error::from(kind),
    }
}

fn reservation_failure() -> TryReserveError {
    Vec::<u8>::new().try_reserve(usize::MAX).expect_err("no memory is that large")
}

impl Built {
    /// The error behind a pointer, its type kept for downcasts.
    pub fn boxed(self) -> Boxed {
        match self {
            Built::Plain(error) => Box::new(error),
            Built::Message(error) => Box::new(error),
            Built::Marker(error) => Box::new(error),
            Built::Reserve(error) => Box::new(error),
            Built::Io(error) => Box::new(error),
        }
    }
}

/// The class of a rank.
pub fn class(rank: Rank) -> Class {
    match CLASSES[rank.0] {
        "Cancelled" => Class::Cancelled,
        "Corruption" => Class::Corruption,
        "AllocationLimit" => Class::ResourceExhaustion(ResourceExhaustionKind::AllocationLimit),
        "AllocationFailure" => Class::ResourceExhaustion(ResourceExhaustionKind::AllocationFailure),
        "Validation" => Class::Validation,
        "Unsupported" => Class::Unsupported,
        "Unauthenticated" => Class::Unauthenticated,
        "PermissionDenied" => Class::PermissionDenied,
        "Conflict" => Class::Conflict,
        "NotFound" => Class::NotFound,
        "Retryable" => Class::Retryable,
        name => unreachable!("{name} is not among the classes"),
    }
}

/// The rank of a class.
pub fn rank(found: Class) -> Rank {
    Rank::all().find(|rank| class(*rank) == found).expect("every class has a rank")
}

fn io_kind(kind: IoKind) -> io::ErrorKind {
    use io::ErrorKind::*;
    match IO_KINDS[kind.0] {
        "Other" => Other,
        "NotFound" => NotFound,
        "PermissionDenied" => PermissionDenied,
        "Unsupported" => Unsupported,
        "OutOfMemory" => OutOfMemory,
        "Interrupted" => Interrupted,
        "TimedOut" => TimedOut,
        "UnexpectedEof" => UnexpectedEof,
        "BrokenPipe" => BrokenPipe,
        "AddrInUse" => AddrInUse,
        "ConnectionAborted" => ConnectionAborted,
        "ConnectionReset" => ConnectionReset,
        "ConnectionRefused" => ConnectionRefused,
        "WouldBlock" => WouldBlock,
        "AlreadyExists" => AlreadyExists,
        "InvalidData" => InvalidData,
        name => unreachable!("{name} is not among the io kinds"),
    }
}

/// The native source of an error: an io error's payload, of others what `source()` gives.
pub fn native_source<'a>(error: &'a (dyn Error + 'static)) -> Option<&'a (dyn Error + 'static)> {
    match error.downcast_ref::<io::Error>() {
        Some(io) => io.get_ref().map(|payload| payload as _),
        None => error.source(),
    }
}

#[cfg(test)]
mod tests {
    use super::*;

    #[test]
    fn ranks_are_in_the_order_of_the_classes() {
        let classes: Vec<Class> = Rank::all().map(class).collect();
        assert!(classes.is_sorted_by(|less, greater| less < greater));
    }

    #[test]
    fn io_kinds_are_named_as_rust_prints_them() {
        for kind in IoKind::all() {
            assert_eq!(format!("{:?}", io_kind(kind)), kind.to_string());
        }
    }
}
