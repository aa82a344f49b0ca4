//! Random cases: a random table or the drive host, perhaps layers, and a random row of granted calls.

use crate::case::{Basket, Case, Chain, Held, Report, Step};
use crate::draft::Draft;
use crate::host::{Kind, LayerKind};
use crate::names::{CLASSES, IO_KINDS, IoKind, Rank};
use crate::random::Random;

/// What a random case is like.
#[derive(Clone, Copy)]
pub struct Mixture {
    pub name: &'static str,
    /// Of 100 records, how many are markers.
    pub markers: usize,
    /// Of 100 records, how many are io errors.
    pub io: usize,
    /// Of 100 records that may have a source, how many have one.
    pub sources: usize,
    /// The most calls.
    pub calls: usize,
    /// Whether the drive host is used.
    pub drive: bool,
}

/// The mixtures that have names.
pub const MIXTURES: [Mixture; 5] = [
    Mixture { name: "mix", markers: 20, io: 25, sources: 55, calls: 24, drive: false },
    Mixture { name: "marked", markers: 60, io: 10, sources: 60, calls: 20, drive: false },
    Mixture { name: "io", markers: 15, io: 60, sources: 60, calls: 16, drive: false },
    Mixture { name: "long", markers: 20, io: 25, sources: 50, calls: 90, drive: false },
    Mixture { name: "drive", markers: 0, io: 0, sources: 0, calls: 30, drive: true },
];

/// `count` random cases of a mixture.
pub fn cases(mixture: Mixture, seed: u64, count: usize) -> Vec<Case> {
    let mut seeds = Random::seeded(seed);
    (0..count).map(|index| case(mixture, &format!("{}-{seed}-{index}", mixture.name), seeds.number())).collect()
}

/// The children of a frame, which tell how many reports a drained basket holds.
#[derive(Clone, Default)]
struct Shape(Vec<Shape>);

struct Play {
    draft: Draft,
    errors: Vec<usize>,
    top: Option<LayerKind>,
    reports: Vec<(Report, Shape)>,
    baskets: Vec<(Basket, Vec<Shape>)>,
    chains: Vec<(Chain, Shape)>,
}

fn case(mixture: Mixture, name: &str, seed: u64) -> Case {
    let mut draft = if mixture.drive { Draft::drive(name, seed) } else { Draft::table(name, seed) };
    let mut errors: Vec<usize> = if mixture.drive { (0..48).collect() } else { Vec::new() };
    if !mixture.drive {
        let records = 1 + draft.random.below(14);
        errors.extend((0..records).map(|index| record(&mut draft, mixture, index)));
    }
    let mut play = Play { draft, errors, top: None, reports: vec![], baskets: vec![], chains: vec![] };
    play.layers();
    let calls = 1 + play.draft.random.below(mixture.calls);
    for _ in 0..calls {
        play.call();
    }
    if play.reports.is_empty() {
        play.new_report();
    }
    play.draft.finish()
}

fn record(draft: &mut Draft, mixture: Mixture, index: usize) -> usize {
    const WORDS: [&str; 6] = ["leaf", "ram", "gauge \"A\"", "", "two\nlines", "Wehr ↓"];
    let sort = draft.random.below(100);
    let sourced = index > 0 && draft.random.chance(mixture.sources, 100);
    let source = sourced.then(|| index - 1 - draft.random.below(index.min(3)));
    let rank = Rank(draft.random.below(CLASSES.len()));
    let kind = if draft.random.chance(1, 4) { 2 } else { draft.random.below(IO_KINDS.len()) };
    let text = match draft.random.below(10) {
        0 => draft.random.pick(&WORDS).to_string(),
        1 => "same".into(),
        _ => format!("error {index}"),
    };
    if sort < mixture.markers {
        draft.marker(rank, source)
    } else if sort < mixture.markers + mixture.io {
        draft.io(IoKind(kind), source)
    } else {
        match draft.random.below(8) {
            0 => draft.reserve(),
            1 | 2 => draft.message(Some(rank), text),
            3 => draft.message(None, text),
            _ => draft.plain(source, text),
        }
    }
}

impl Play {
    fn layers(&mut self) {
        let stack: &[LayerKind] = match self.draft.random.below(8) {
            0 => &[LayerKind::Marker],
            1 => &[LayerKind::Io],
            2 => &[LayerKind::Io, LayerKind::Marker],
            3 => &[LayerKind::Marker, LayerKind::Io],
            _ => &[],
        };
        for layer in stack {
            self.draft.layer(*layer);
            self.top = Some(*layer);
            for _ in 0..1 + self.draft.random.below(4) {
                self.entry();
            }
        }
    }

    fn entry(&mut self) {
        let source = self.error();
        let kind = match self.top {
            Some(LayerKind::Marker) => Kind::Marker(Rank(self.draft.random.below(CLASSES.len()))),
            Some(LayerKind::Io) => Kind::Io(IoKind(self.draft.random.below(IO_KINDS.len()))),
            None => return,
        };
        if self.errors.len() < 60 {
            let number = self.draft.entry(kind, source);
            self.errors.push(number);
        }
    }

    /// Some error; the later ones, which have more beneath them, are likelier.
    fn error(&mut self) -> usize {
        let (one, other) = (self.draft.random.below(self.errors.len()), self.draft.random.below(self.errors.len()));
        self.errors[one.max(other)]
    }

    fn call(&mut self) {
        match self.draft.random.below(24) {
            0..=4 => self.new_report(),
            5..=8 => self.raise(),
            9..=10 => self.raise_all(),
            11..=13 => self.chain(),
            14 => self.chain_all(),
            15 => self.begin_basket(),
            16..=17 => self.collect(),
            18 => self.take(),
            19 => self.drain(),
            20 => self.flatten(),
            21 => self.rebuild(),
            22 => self.discard(),
            _ => {
                self.entry();
                self.ask();
            }
        }
    }

    fn some_report(&mut self) -> Option<(Report, Shape)> {
        let count = self.reports.len();
        (count > 0).then(|| self.reports.swap_remove(self.draft.random.below(count)))
    }

    fn some_basket(&mut self) -> Option<(Basket, Vec<Shape>)> {
        let count = self.baskets.len();
        (count > 0).then(|| self.baskets.swap_remove(self.draft.random.below(count)))
    }

    fn new_report(&mut self) {
        let error = self.error();
        let name = self.draft.new_report(error);
        self.reports.push((name, Shape::default()));
    }

    fn raise(&mut self) {
        let Some((name, shape)) = self.some_report() else { return self.new_report() };
        let error = self.error();
        let at = self.draft.at(error);
        self.draft.step(Step::Raise(name, at));
        self.reports.push((name, Shape(vec![shape])));
    }

    fn raise_all(&mut self) {
        let Some((row, shapes)) = self.some_basket() else { return self.begin_basket() };
        let error = self.error();
        let (name, at) = (self.draft.fresh_report(), self.draft.at(error));
        self.draft.step(Step::RaiseAll(name, row, at));
        self.draft.free_basket(row);
        self.reports.push((name, Shape(shapes)));
    }

    fn chain(&mut self) {
        if self.reports.len() < 2 {
            return self.new_report();
        }
        if let (Some((head, mut shape)), Some((tail, child))) = (self.some_report(), self.some_report()) {
            self.draft.step(Step::Chain(head, tail));
            self.draft.free_report(tail);
            shape.0.push(child);
            self.reports.push((head, shape));
        }
    }

    fn chain_all(&mut self) {
        if self.reports.is_empty() || self.baskets.is_empty() {
            return self.collect();
        }
        if let (Some((head, mut shape)), Some((row, shapes))) = (self.some_report(), self.some_basket()) {
            self.draft.step(Step::ChainAll(head, row));
            self.draft.free_basket(row);
            shape.0.extend(shapes);
            self.reports.push((head, shape));
        }
    }

    fn begin_basket(&mut self) {
        let row = self.draft.fresh_basket();
        self.draft.step(Step::Basket(row));
        self.baskets.push((row, Vec::new()));
    }

    fn collect(&mut self) {
        if self.reports.is_empty() {
            return self.new_report();
        }
        if self.baskets.is_empty() {
            self.begin_basket();
        }
        if let (Some((name, shape)), Some((row, mut shapes))) = (self.some_report(), self.some_basket()) {
            self.draft.step(Step::Collect(row, name));
            self.draft.free_report(name);
            shapes.push(shape);
            self.baskets.push((row, shapes));
        }
    }

    fn take(&mut self) {
        let Some((row, mut shapes)) = self.some_basket() else { return };
        if shapes.is_empty() {
            self.draft.step(Step::Take(row, None));
        } else {
            let name = self.draft.fresh_report();
            self.draft.step(Step::Take(row, Some(name)));
            self.reports.push((name, shapes.remove(0)));
        }
        self.baskets.push((row, shapes));
    }

    fn drain(&mut self) {
        let Some((name, shape)) = self.some_report() else { return };
        let row = self.draft.fresh_basket();
        self.draft.step(Step::DrainChildren(name, row));
        self.reports.push((name, Shape::default()));
        self.baskets.push((row, shape.0));
    }

    fn flatten(&mut self) {
        let Some((name, shape)) = self.some_report() else { return };
        let list = (0..).map(Chain).find(|list| self.chains.iter().all(|(taken, _)| taken != list));
        let list = list.expect("there are few chains");
        self.draft.step(Step::IntoChain(name, list));
        self.draft.free_report(name);
        self.chains.push((list, shape));
    }

    fn rebuild(&mut self) {
        let Some((list, shape)) = self.chains.pop() else { return self.flatten() };
        let name = self.draft.fresh_report();
        self.draft.step(Step::IntoExn(list, name));
        self.reports.push((name, shape));
    }

    fn discard(&mut self) {
        if self.draft.random.chance(1, 3) {
            let Some((row, _)) = self.some_basket() else { return };
            self.draft.step(Step::Discard(Held::Basket(row)));
            self.draft.free_basket(row);
        } else if let Some((name, _)) = self.some_report() {
            self.draft.step(Step::Discard(Held::Report(name)));
            self.draft.free_report(name);
        }
    }

    fn ask(&mut self) {
        let Some((name, shape)) = self.some_report() else { return };
        self.draft.step(Step::Ask(name));
        self.reports.push((name, shape));
    }
}
