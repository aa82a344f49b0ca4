//! A run: the building calls of a case on real `Exn`s.

use std::collections::{BTreeMap, VecDeque};
use std::error::Error as StdError;
use std::panic::Location;

use cases::case::{At, Basket, Case, Chain, Held, Report, Step};
use cases::host::{Host, Kind};
use gix_error::exn::Untyped;
use gix_error::{Error, Exn};

use crate::errors::{Built, Texts, build};

/// Frames that may stand at one time.
const FRAMES: usize = 1_024;

type Site = fn(Join, Built) -> Exn;

include!(concat!(env!("OUT_DIR"), "/sites.rs"));

/// What a new frame is put over.
pub enum Join {
    Nothing,
    One(Exn),
    Row(VecDeque<Exn>),
}

impl Join {
    /// Make the frame. Its location is that of the caller.
    #[track_caller]
    fn with(self, error: Built) -> Exn {
        match error {
            Built::Plain(error) => self.over(error),
            Built::Message(error) => self.over(error),
            Built::Marker(error) => self.over(error),
            Built::Reserve(error) => self.over(error),
            Built::Io(error) => self.over(error),
        }
    }

    #[track_caller]
    fn over<E: StdError + Send + Sync + 'static>(self, error: E) -> Exn {
        match self {
            Join::Nothing => Exn::new(error).erased(),
            Join::One(report) => report.raise(error).erased(),
            Join::Row(row) => Exn::raise_all::<Untyped, _>(row, error).erased(),
        }
    }
}

/// Everything that stands after some steps of a case.
pub struct World {
    pub host: Host,
    pub reports: BTreeMap<Report, Exn>,
    pub baskets: BTreeMap<Basket, VecDeque<Exn>>,
    pub chains: BTreeMap<Chain, Error>,
    texts: Texts,
    made: Vec<At>,
}

impl World {
    /// Run the first `count` steps of `case`.
    pub fn after(case: &Case, count: usize, texts: Texts) -> Result<Self, String> {
        let mut world = World {
            host: Host::new(&case.base),
            reports: BTreeMap::new(),
            baskets: BTreeMap::new(),
            chains: BTreeMap::new(),
            texts,
            made: Vec::new(),
        };
        for (line, step) in &case.steps[..count] {
            world.step(step).map_err(|why| format!("case {} line {line}: {why}", case.name))?;
        }
        Ok(world)
    }

    /// Which frame of this run was made at `location`.
    pub fn frame_at(&self, location: &'static Location<'static>) -> usize {
        let first_line = 2;
        location.line() as usize - first_line
    }

    /// Error and place that the frame was made of.
    pub fn made(&self, frame: usize) -> At {
        self.made[frame]
    }

    fn step(&mut self, step: &Step) -> Result<(), String> {
        match *step {
            Step::Layer(kind) => self.host.add_layer(kind)?,
            Step::Entry { kind, source, number } => self.entry(kind, source, number)?,
            Step::New(name, at) => self.raise(Join::Nothing, name, at)?,
            Step::Raise(name, at) => {
                let report = self.report(name)?;
                self.raise(Join::One(report), name, at)?;
            }
            Step::RaiseAll(name, row, at) => {
                let row = self.basket(row)?;
                self.raise(Join::Row(row), name, at)?;
            }
            Step::Chain(head, tail) => self.chain(head, tail)?,
            Step::ChainAll(head, row) => self.chain_all(head, row)?,
            Step::Basket(name) => self.put_basket(name, VecDeque::new())?,
            Step::Collect(row, name) => self.collect(row, name)?,
            Step::Take(row, name) => self.take(row, name)?,
            Step::DrainChildren(name, row) => self.drain_children(name, row)?,
            Step::IntoChain(name, list) => self.flatten(name, list)?,
            Step::IntoExn(list, name) => self.rebuild(list, name)?,
            Step::Discard(held) => self.discard(held)?,
            Step::Ask(name) => self.stands(name)?,
        }
        Ok(())
    }

    fn entry(&mut self, kind: Kind, source: usize, number: usize) -> Result<(), String> {
        let given = self.host.add_entry(kind, source)?;
        if given != number {
            return Err(format!("the entry has the number {given}"));
        }
        Ok(())
    }

    fn raise(&mut self, join: Join, name: Report, at: At) -> Result<(), String> {
        if self.host.meaning(at.error).is_none() {
            return Err(format!("error {} is not live", at.error));
        }
        if self.frames() + frames_joined(&join) == FRAMES {
            return Err(format!("all {FRAMES} frames are taken"));
        }
        let site = SITES.get(self.made.len()).ok_or("the harness has no more call sites")?;
        let error = build(&self.host, at.error, self.texts);
        self.made.push(at);
        self.put_report(name, site(join, error))
    }

    fn chain(&mut self, head: Report, tail: Report) -> Result<(), String> {
        let (report, child) = (self.report(head)?, self.report(tail)?);
        self.put_report(head, report.chain::<Untyped>(child))
    }

    fn chain_all(&mut self, head: Report, row: Basket) -> Result<(), String> {
        let (report, children) = (self.report(head)?, self.basket(row)?);
        self.put_report(head, report.chain_all::<Untyped, _>(children))
    }

    fn collect(&mut self, row: Basket, name: Report) -> Result<(), String> {
        let report = self.report(name)?;
        let row = self.baskets.get_mut(&row).ok_or_else(|| format!("{row} does not stand"))?;
        row.push_back(report);
        Ok(())
    }

    fn take(&mut self, row: Basket, name: Option<Report>) -> Result<(), String> {
        let reports = self.baskets.get_mut(&row).ok_or_else(|| format!("{row} does not stand"))?;
        match (reports.pop_front(), name) {
            (Some(report), Some(name)) => self.put_report(name, report),
            (None, None) => Ok(()),
            (Some(_), None) => Err(format!("{row} is not empty")),
            (None, Some(_)) => Err(format!("{row} is empty")),
        }
    }

    fn drain_children(&mut self, name: Report, row: Basket) -> Result<(), String> {
        let mut report = self.report(name)?;
        let children = report.drain_children().collect();
        self.put_report(name, report)?;
        self.put_basket(row, children)
    }

    fn flatten(&mut self, name: Report, list: Chain) -> Result<(), String> {
        let error = self.report(name)?.into_error();
        match self.chains.insert(list, error) {
            Some(_) => Err(format!("{list} stands already")),
            None => Ok(()),
        }
    }

    fn rebuild(&mut self, list: Chain, name: Report) -> Result<(), String> {
        let error = self.chains.remove(&list).ok_or_else(|| format!("{list} does not stand"))?;
        self.put_report(name, error.into_exn())?;
        if self.frames() > FRAMES {
            return Err("too few frames are free".into());
        }
        Ok(())
    }

    fn discard(&mut self, held: Held) -> Result<(), String> {
        match held {
            Held::Report(name) => self.report(name).map(drop),
            Held::Basket(row) => self.basket(row).map(drop),
            Held::Chain(list) => self.chains.remove(&list).map(drop).ok_or_else(|| format!("{list} does not stand")),
        }
    }

    fn stands(&self, name: Report) -> Result<(), String> {
        if !self.reports.contains_key(&name) {
            return Err(format!("{name} does not stand"));
        }
        Ok(())
    }

    fn report(&mut self, name: Report) -> Result<Exn, String> {
        self.reports.remove(&name).ok_or_else(|| format!("{name} does not stand"))
    }

    fn basket(&mut self, row: Basket) -> Result<VecDeque<Exn>, String> {
        self.baskets.remove(&row).ok_or_else(|| format!("{row} does not stand"))
    }

    fn put_report(&mut self, name: Report, report: Exn) -> Result<(), String> {
        match self.reports.insert(name, report) {
            Some(_) => Err(format!("{name} stands already")),
            None => Ok(()),
        }
    }

    fn put_basket(&mut self, row: Basket, reports: VecDeque<Exn>) -> Result<(), String> {
        match self.baskets.insert(row, reports) {
            Some(_) => Err(format!("{row} stands already")),
            None => Ok(()),
        }
    }

    fn frames(&self) -> usize {
        let loose = self.reports.values();
        loose.chain(self.baskets.values().flatten()).map(|report| report.iter().count()).sum()
    }
}

fn frames_joined(join: &Join) -> usize {
    match join {
        Join::Nothing => 0,
        Join::One(report) => report.iter().count(),
        Join::Row(row) => row.iter().map(|report| report.iter().count()).sum(),
    }
}

#[cfg(test)]
mod tests {
    use super::*;

    fn run(steps: &str) -> Result<World, String> {
        let records = "error 0 plain none \"x\"\nerror 1 plain 0 \"y\"\n";
        let file = format!("case a\nhost table\n{records}{steps}");
        let cases = cases::parse::cases(&file)?;
        World::after(&cases[0], cases[0].steps.len(), Texts::Rust)
    }

    fn refused(steps: &str, line: usize) {
        let why = run(steps).err().unwrap_or_else(|| panic!("granted: {steps}"));
        assert!(why.starts_with(&format!("case a line {line}: ")), "{steps}: {why}");
    }

    #[test]
    fn calls_that_would_be_turned_down_are_refused_with_their_line() {
        refused("new r0 2 1\n", 5);
        refused("new r0 0 1\nnew r0 0 1\n", 6);
        refused("raise r0 0 1\n", 5);
        refused("new r0 0 1\nchain r0 r0\n", 6);
        refused("new r0 0 1\nnew r1 0 1\nchain r0 r1\nraise r1 0 1\n", 8);
        refused("basket b0\nraise_all r0 b0 0 1\ncollect b0 r0\n", 7);
        refused("basket b0\ntake b0 r0\n", 6);
        refused("new r0 0 1\nbasket b0\ncollect b0 r0\ntake b0 none\n", 8);
        refused("ask r0\n", 5);
        refused("mark 0 Cancelled as 2\n", 5);
        refused("layer marker\nmark 0 Cancelled as 3\n", 6);
        refused("layer marker\nlayer io\nmark 0 Cancelled as 2\n", 7);
        refused("layer marker\nmark 2 Cancelled as 2\n", 6);
    }

    #[test]
    fn the_store_has_1024_frames() {
        let full = format!("new r0 0 1\n{}", "raise r0 1 1\n".repeat(1_023));
        assert_eq!(run(&full).map(|world| world.frames()), Ok(1_024));
        refused(&format!("{full}raise r0 1 1\n"), 5 + 1_024);
        assert!(run(&format!("{full}discard r0\nnew r0 0 1\n")).is_ok());
        refused(&format!("{full}into_chain r0 c0\nnew r1 0 1\ninto_exn c0 r0\n"), 5 + 1_026);
    }

    #[test]
    fn each_frame_has_a_site_of_its_own() {
        let world = run("new r0 0 9\nraise r0 1 9\nnew r1 0 9\nchain r0 r1\n").expect("every call is granted");
        let frames: Vec<usize> =
            world.reports[&Report(0)].iter().map(|frame| world.frame_at(frame.location())).collect();
        assert_eq!(frames, [1, 0, 2]);
    }
}
