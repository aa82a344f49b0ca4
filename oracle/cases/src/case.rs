//! The parts of a case, and how they are written.

use std::fmt;

use crate::host::{Base, ErrorNumber, Kind, LayerKind, Meaning};
use crate::quote::quote;

/// Report, basket and chain names have numbers below this.
pub const NAMES: usize = 1_024;

/// The name of a report.
#[derive(Clone, Copy, Debug, Eq, Ord, PartialEq, PartialOrd)]
pub struct Report(pub usize);
/// The name of a basket.
#[derive(Clone, Copy, Debug, Eq, Ord, PartialEq, PartialOrd)]
pub struct Basket(pub usize);
/// The name of a chain.
#[derive(Clone, Copy, Debug, Eq, Ord, PartialEq, PartialOrd)]
pub struct Chain(pub usize);

/// An error with the place where it is raised.
#[derive(Clone, Copy, Debug, Eq, PartialEq)]
pub struct At {
    pub error: ErrorNumber,
    pub place: u32,
}

/// Anything that can be discarded.
#[derive(Clone, Copy, Debug, Eq, PartialEq)]
pub enum Held {
    Report(Report),
    Basket(Basket),
    Chain(Chain),
}

/// One line of a case after its host.
#[derive(Clone, Copy, Debug, Eq, PartialEq)]
pub enum Step {
    Layer(LayerKind),
    Entry { kind: Kind, source: ErrorNumber, number: ErrorNumber },
    New(Report, At),
    Raise(Report, At),
    RaiseAll(Report, Basket, At),
    Chain(Report, Report),
    ChainAll(Report, Basket),
    Basket(Basket),
    Collect(Basket, Report),
    Take(Basket, Option<Report>),
    DrainChildren(Report, Basket),
    IntoChain(Report, Chain),
    IntoExn(Chain, Report),
    Discard(Held),
    Ask(Report),
}

/// A whole case. Records and steps have their lines in the file, or 0 where there is no file.
#[derive(Clone, Debug)]
pub struct Case {
    pub name: String,
    pub base: Base,
    pub record_lines: Vec<usize>,
    pub steps: Vec<(usize, Step)>,
}

impl Case {
    /// A case that is not read from a file.
    pub fn made(name: String, base: Base, steps: Vec<Step>) -> Self {
        let records = if let Base::Table(records) = &base { records.len() } else { 0 };
        Case { name, base, record_lines: vec![0; records], steps: steps.into_iter().map(|step| (0, step)).collect() }
    }
}

impl fmt::Display for Report {
    fn fmt(&self, f: &mut fmt::Formatter<'_>) -> fmt::Result {
        write!(f, "r{}", self.0)
    }
}

impl fmt::Display for Basket {
    fn fmt(&self, f: &mut fmt::Formatter<'_>) -> fmt::Result {
        write!(f, "b{}", self.0)
    }
}

impl fmt::Display for Chain {
    fn fmt(&self, f: &mut fmt::Formatter<'_>) -> fmt::Result {
        write!(f, "c{}", self.0)
    }
}

impl fmt::Display for At {
    fn fmt(&self, f: &mut fmt::Formatter<'_>) -> fmt::Result {
        write!(f, "{} {}", self.error, self.place)
    }
}

impl fmt::Display for Held {
    fn fmt(&self, f: &mut fmt::Formatter<'_>) -> fmt::Result {
        match self {
            Held::Report(report) => report.fmt(f),
            Held::Basket(basket) => basket.fmt(f),
            Held::Chain(chain) => chain.fmt(f),
        }
    }
}

impl fmt::Display for Step {
    fn fmt(&self, f: &mut fmt::Formatter<'_>) -> fmt::Result {
        match self {
            Step::Layer(LayerKind::Marker) => f.write_str("layer marker"),
            Step::Layer(LayerKind::Io) => f.write_str("layer io"),
            Step::Entry { kind: Kind::Marker(rank), source, number } => write!(f, "mark {source} {rank} as {number}"),
            Step::Entry { kind: Kind::Io(kind), source, number } => write!(f, "wrap {source} {kind} as {number}"),
            Step::Entry { .. } => Err(fmt::Error),
            Step::New(report, at) => write!(f, "new {report} {at}"),
            Step::Raise(report, at) => write!(f, "raise {report} {at}"),
            Step::RaiseAll(report, basket, at) => write!(f, "raise_all {report} {basket} {at}"),
            Step::Chain(head, tail) => write!(f, "chain {head} {tail}"),
            Step::ChainAll(head, basket) => write!(f, "chain_all {head} {basket}"),
            Step::Basket(basket) => write!(f, "basket {basket}"),
            Step::Collect(basket, report) => write!(f, "collect {basket} {report}"),
            Step::Take(basket, Some(report)) => write!(f, "take {basket} {report}"),
            Step::Take(basket, None) => write!(f, "take {basket} none"),
            Step::DrainChildren(report, basket) => write!(f, "drain_children {report} {basket}"),
            Step::IntoChain(report, chain) => write!(f, "into_chain {report} {chain}"),
            Step::IntoExn(chain, report) => write!(f, "into_exn {chain} {report}"),
            Step::Discard(held) => write!(f, "discard {held}"),
            Step::Ask(report) => write!(f, "ask {report}"),
        }
    }
}

impl fmt::Display for Meaning {
    fn fmt(&self, f: &mut fmt::Formatter<'_>) -> fmt::Result {
        let source = self.source.map_or("none".to_string(), |source| source.to_string());
        match self.kind {
            Kind::Plain => write!(f, "plain {source} ")?,
            Kind::Message(Some(rank)) => write!(f, "message {rank} ")?,
            Kind::Message(None) => f.write_str("message none ")?,
            Kind::Marker(rank) => write!(f, "marker {rank} {source} ")?,
            Kind::Reserve => f.write_str("reserve ")?,
            Kind::Io(kind) => write!(f, "io {kind} {source} ")?,
        }
        f.write_str(&quote(&self.text))
    }
}

impl fmt::Display for Case {
    fn fmt(&self, f: &mut fmt::Formatter<'_>) -> fmt::Result {
        writeln!(f, "case {}", self.name)?;
        match &self.base {
            Base::Drive => writeln!(f, "host drive")?,
            Base::Table(records) => {
                writeln!(f, "host table")?;
                for (number, record) in records.iter().enumerate() {
                    writeln!(f, "error {number} {record}")?;
                }
            }
        }
        self.steps.iter().try_for_each(|(_, step)| writeln!(f, "{step}"))
    }
}
