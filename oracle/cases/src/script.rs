//! Commissioning scripts over the drive host, turned into cases.
//!
//! A script has one basket. Which reports have how many children is followed here, so that every report that a
//! drained one gives up can be moved by name.

use crate::case::{At, Basket, Case, Held, Report, Step};
use crate::host::Base;
use crate::parse::decimal;
use crate::random::Random;

const ROW: Basket = Basket(0);
const DRAINED: Basket = Basket(1);
const FIRST: Report = Report(0);
const SECOND: Report = Report(1);

/// The shape of a report: its children in order.
#[derive(Default)]
struct Shape(Vec<Shape>);

#[derive(Default)]
struct Conversion {
    steps: Vec<Step>,
    row: Vec<Shape>,
}

/// The case that makes the calls of `script`, or the first line that it would not be granted.
pub fn case(name: &str, script: &str) -> Result<Case, String> {
    let mut conversion = Conversion::default();
    conversion.call(Step::Basket(ROW));
    if !script.is_empty() && !script.ends_with('\n') {
        return Err("the last line does not end with a newline".into());
    }
    for (index, line) in script.split_terminator('\n').enumerate() {
        conversion.line(line, index + 1).ok_or_else(|| format!("line {}: `{line}`", index + 1))?;
    }
    Ok(Case::made(name.into(), Base::Drive, conversion.steps))
}

/// `count` random scripts, no line of which is refused, as cases.
pub fn random(seed: u64, count: usize) -> Result<Vec<Case>, String> {
    let mut random = Random::seeded(seed);
    (0..count).map(|index| case(&format!("scripts-{seed}-{index}"), &random_script(&mut random))).collect()
}

fn random_script(random: &mut Random) -> String {
    let mut script = String::new();
    let mut conversion = Conversion::default();
    for place in 0..1 + random.below(20) {
        let error = random.below(48);
        let line = match random.below(16) {
            0..=6 => format!("new {error}"),
            7..=10 => format!("raise {error}"),
            11 | 12 => "chain".into(),
            13 => format!("all {error}"),
            14 => "drain".into(),
            _ => "drop".into(),
        };
        let needed = match line.split(' ').next() {
            Some("chain") => 2,
            Some("raise" | "drain" | "drop") => 1,
            _ => 0,
        };
        let line = if conversion.row.len() < needed { format!("new {error}") } else { line };
        conversion.line(&line, place + 1).expect("the line is known and finds its reports");
        script += &line;
        script.push('\n');
    }
    script
}

impl Conversion {
    fn call(&mut self, step: Step) {
        self.steps.push(step);
    }

    fn line(&mut self, line: &str, place: usize) -> Option<()> {
        let words: Vec<&str> = line.split(' ').collect();
        let at = |word: &str| {
            let error = decimal(word).filter(|error| *error < 48)?;
            Some(At { error, place: place as u32 })
        };
        match words[..] {
            ["new", error] => self.new_report(at(error)?),
            ["raise", error] => self.raise(at(error)?)?,
            ["all", error] => self.raise_all(at(error)?),
            ["chain"] => self.chain()?,
            ["drain"] => self.drain()?,
            ["drop"] => {
                self.take(ROW, FIRST)?;
                self.call(Step::Discard(Held::Report(FIRST)));
            }
            _ => return None,
        }
        Some(())
    }

    fn take(&mut self, row: Basket, name: Report) -> Option<Shape> {
        if self.row.is_empty() {
            return None;
        }
        self.call(Step::Take(row, Some(name)));
        Some(self.row.remove(0))
    }

    fn collect(&mut self, name: Report, shape: Shape) {
        self.call(Step::Collect(ROW, name));
        self.row.push(shape);
    }

    fn new_report(&mut self, at: At) {
        self.call(Step::New(FIRST, at));
        self.collect(FIRST, Shape::default());
    }

    fn raise(&mut self, at: At) -> Option<()> {
        let shape = self.take(ROW, FIRST)?;
        self.call(Step::Raise(FIRST, at));
        self.collect(FIRST, Shape(vec![shape]));
        Some(())
    }

    fn raise_all(&mut self, at: At) {
        let children = std::mem::take(&mut self.row);
        self.call(Step::RaiseAll(FIRST, ROW, at));
        self.call(Step::Basket(ROW));
        self.collect(FIRST, Shape(children));
    }

    fn chain(&mut self) -> Option<()> {
        let mut head = self.take(ROW, FIRST)?;
        let tail = self.take(ROW, SECOND)?;
        self.call(Step::Chain(FIRST, SECOND));
        head.0.push(tail);
        self.collect(FIRST, head);
        Some(())
    }

    fn drain(&mut self) -> Option<()> {
        let mut head = self.take(ROW, FIRST)?;
        self.call(Step::DrainChildren(FIRST, DRAINED));
        for child in std::mem::take(&mut head.0) {
            self.call(Step::Take(DRAINED, Some(SECOND)));
            self.collect(SECOND, child);
        }
        self.call(Step::Discard(Held::Basket(DRAINED)));
        self.collect(FIRST, head);
        Some(())
    }
}
