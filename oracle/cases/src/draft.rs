//! Putting a case together: records with the texts that Rust gives them, and trees as building calls.

use crate::case::{At, Basket, Case, NAMES, Report, Step};
use crate::host::{Base, ErrorNumber, Host, Kind, LayerKind, Meaning};
use crate::names::{IoKind, Rank};
use crate::random::Random;

/// A tree of errors that is still to be built.
#[derive(Clone, Debug)]
pub struct Tree {
    pub error: ErrorNumber,
    pub children: Vec<Tree>,
}

impl Tree {
    pub fn leaf(error: ErrorNumber) -> Self {
        Tree { error, children: Vec::new() }
    }

    pub fn over(error: ErrorNumber, children: Vec<Tree>) -> Self {
        Tree { error, children }
    }
}

/// A case that is being written.
pub struct Draft {
    name: String,
    records: Vec<Meaning>,
    layered: Option<Host>,
    drive: bool,
    steps: Vec<Step>,
    reports_taken: Vec<bool>,
    baskets_taken: Vec<bool>,
    place: u32,
    pub random: Random,
}

impl Draft {
    pub fn table(name: impl Into<String>, seed: u64) -> Self {
        Draft {
            name: name.into(),
            records: Vec::new(),
            layered: None,
            drive: false,
            steps: Vec::new(),
            reports_taken: vec![false; NAMES],
            baskets_taken: vec![false; NAMES],
            place: 0,
            random: Random::seeded(seed),
        }
    }

    pub fn drive(name: impl Into<String>, seed: u64) -> Self {
        Draft { drive: true, ..Draft::table(name, seed) }
    }

    pub fn finish(self) -> Case {
        let base = if self.drive { Base::Drive } else { Base::Table(self.records) };
        Case::made(self.name, base, self.steps)
    }

    fn record(&mut self, kind: Kind, source: Option<ErrorNumber>, text: String) -> ErrorNumber {
        self.records.push(Meaning { kind, source, text });
        self.records.len() - 1
    }

    fn text_of(&self, number: ErrorNumber) -> String {
        self.records[number].text.clone()
    }

    pub fn plain(&mut self, source: Option<ErrorNumber>, text: impl Into<String>) -> ErrorNumber {
        self.record(Kind::Plain, source, text.into())
    }

    pub fn message(&mut self, rank: Option<Rank>, text: impl Into<String>) -> ErrorNumber {
        self.record(Kind::Message(rank), None, text.into())
    }

    /// A marker displays its source or else its class.
    pub fn marker(&mut self, rank: Rank, source: Option<ErrorNumber>) -> ErrorNumber {
        let text = match (source, rank.0) {
            (Some(source), _) => self.text_of(source),
            (None, 2 | 3) => format!("ResourceExhaustion({rank})"),
            (None, _) => rank.to_string(),
        };
        self.record(Kind::Marker(rank), source, text)
    }

    pub fn reserve(&mut self) -> ErrorNumber {
        let failure = Vec::<u8>::new().try_reserve(usize::MAX).expect_err("no memory is that large");
        self.record(Kind::Reserve, None, failure.to_string())
    }

    /// An io error displays its payload or else its kind.
    pub fn io(&mut self, kind: IoKind, payload: Option<ErrorNumber>) -> ErrorNumber {
        let text = match payload {
            Some(payload) => self.text_of(payload),
            None => io_text(kind),
        };
        self.record(Kind::Io(kind), payload, text)
    }

    /// Put a layer on top. No record follows it.
    pub fn layer(&mut self, kind: LayerKind) {
        let base = if self.drive { Base::Drive } else { Base::Table(self.records.clone()) };
        let mut host = self.layered.take().unwrap_or_else(|| Host::new(&base));
        host.add_layer(kind).expect("a draft has each layer once");
        self.layered = Some(host);
        self.steps.push(Step::Layer(kind));
    }

    /// Make an entry in the topmost layer.
    pub fn entry(&mut self, kind: Kind, source: ErrorNumber) -> ErrorNumber {
        let host = self.layered.as_mut().expect("an entry comes after its layer");
        let number = host.add_entry(kind, source).expect("a draft wraps live errors only");
        self.steps.push(Step::Entry { kind, source, number });
        number
    }

    pub fn step(&mut self, step: Step) {
        self.steps.push(step);
    }

    /// A report name that is not in use.
    pub fn fresh_report(&mut self) -> Report {
        Report(claim(&mut self.reports_taken))
    }

    /// A basket name that is not in use.
    pub fn fresh_basket(&mut self) -> Basket {
        Basket(claim(&mut self.baskets_taken))
    }

    pub fn free_report(&mut self, name: Report) {
        self.reports_taken[name.0] = false;
    }

    pub fn free_basket(&mut self, name: Basket) {
        self.baskets_taken[name.0] = false;
    }

    /// The next place: they count up, and now and then one comes twice or is large.
    pub fn at(&mut self, error: ErrorNumber) -> At {
        let place = match self.random.below(12) {
            0 => self.place,
            1 => self.random.number() as u32,
            _ => {
                self.place += 1;
                self.place
            }
        };
        At { error, place }
    }

    pub fn new_report(&mut self, error: ErrorNumber) -> Report {
        let (name, at) = (self.fresh_report(), self.at(error));
        self.steps.push(Step::New(name, at));
        name
    }

    /// Build `tree` by calls, choosing among the ways there are.
    pub fn tree(&mut self, tree: &Tree) -> Report {
        match (&tree.children[..], self.random.below(3)) {
            ([], _) => self.new_report(tree.error),
            ([child], 0 | 1) => {
                let name = self.tree(child);
                let at = self.at(tree.error);
                self.steps.push(Step::Raise(name, at));
                name
            }
            (children, 0) => self.tree_by_chain(tree.error, children),
            (children, 1) => self.tree_by_chain_all(tree.error, children),
            (children, _) => self.tree_by_raise_all(tree.error, children),
        }
    }

    pub fn tree_by_chain(&mut self, error: ErrorNumber, children: &[Tree]) -> Report {
        let head = self.new_report(error);
        for child in children {
            let child = self.tree(child);
            self.steps.push(Step::Chain(head, child));
            self.free_report(child);
        }
        head
    }

    pub fn tree_by_chain_all(&mut self, error: ErrorNumber, children: &[Tree]) -> Report {
        let row = self.row(children);
        let head = self.new_report(error);
        self.steps.push(Step::ChainAll(head, row));
        self.free_basket(row);
        head
    }

    pub fn tree_by_raise_all(&mut self, error: ErrorNumber, children: &[Tree]) -> Report {
        let row = self.row(children);
        let (head, at) = (self.fresh_report(), self.at(error));
        self.steps.push(Step::RaiseAll(head, row, at));
        self.free_basket(row);
        head
    }

    fn row(&mut self, children: &[Tree]) -> Basket {
        let row = self.fresh_basket();
        self.steps.push(Step::Basket(row));
        for child in children {
            let child = self.tree(child);
            self.steps.push(Step::Collect(row, child));
            self.free_report(child);
        }
        row
    }
}

fn claim(taken: &mut [bool]) -> usize {
    let name = taken.iter().position(|taken| !taken).expect("a draft has few names in use");
    taken[name] = true;
    name
}

/// What Rust displays for an io error of `kind` without payload.
fn io_text(kind: IoKind) -> String {
    use std::io::ErrorKind::*;
    let kinds = [
        Other,
        NotFound,
        PermissionDenied,
        Unsupported,
        OutOfMemory,
        Interrupted,
        TimedOut,
        UnexpectedEof,
        BrokenPipe,
        AddrInUse,
        ConnectionAborted,
        ConnectionReset,
        ConnectionRefused,
        WouldBlock,
        AlreadyExists,
        InvalidData,
    ];
    std::io::Error::from(kinds[kind.0]).to_string()
}
