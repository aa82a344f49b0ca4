//! Everything that one build of the crate answers on what stands after a run.
//!
//! Several questions use a report up, so the case is run once for each way of asking.

use std::collections::{BTreeMap, HashMap, HashSet};

use cases::case::{Basket, Case, Chain, Report, Step};
use cases::host::ErrorNumber;
use gix_error::types::probe::{ChainNode, Raised, chain_nodes, raised_in_error, raised_in_tree};
use gix_error::{Error, Exn};

use crate::errors::Texts;
use crate::identity::{Identity, NodeId};
use crate::prints::{self, Form, Print};
use crate::readings::{self, Readings};
use crate::world::World;

/// What a block of answers is about.
#[derive(Clone, Copy, Debug, Eq, Ord, PartialEq, PartialOrd)]
pub enum Subject {
    Report(Report),
    InBasket(Basket, usize),
    Chain(Chain),
}

/// Where an answer comes from.
#[derive(Clone, Copy, Debug, Eq, PartialEq)]
pub enum Via {
    Exn,
    Error,
}

/// A node of the flattening.
#[derive(Debug)]
pub struct Node {
    pub id: NodeId,
    pub error: usize,
    pub place: u32,
    pub parent: Option<usize>,
}

/// A frame of the tree that comes back from `Error`.
#[derive(Debug)]
pub struct Frame {
    pub error: usize,
    pub place: u32,
    pub parent: Option<usize>,
}

/// The answers on one subject.
#[derive(Debug, Default)]
pub struct Answers {
    pub nodes: Vec<Node>,
    pub readings: Vec<(Via, Readings)>,
    pub prints: Vec<(Via, Print)>,
    pub frames: Vec<Frame>,
}

/// A moment of a case at which something is asked: the steps before it, and of what.
struct Sitting {
    steps: usize,
    only: Option<Report>,
}

/// All answers of this build on `case`, in order.
pub fn of_case(case: &Case) -> Result<Vec<(Subject, Answers)>, String> {
    prints::check_texts(case)?;
    let asked = case.steps.iter().enumerate().filter_map(|(index, (_, step))| match step {
        Step::Ask(report) => Some(Sitting { steps: index + 1, only: Some(*report) }),
        _ => None,
    });
    let at_the_end = Sitting { steps: case.steps.len(), only: None };
    let mut answers = Vec::new();
    for sitting in asked.chain([at_the_end]) {
        answers.extend(sitting.answers(case)?);
    }
    Ok(answers)
}

impl Sitting {
    fn answers(&self, case: &Case) -> Result<BTreeMap<Subject, Answers>, String> {
        let mut answers = BTreeMap::new();
        self.ask_exns(case, &mut answers)?;
        self.ask_errors(case, &mut answers)?;
        self.ask_prints(case, &mut answers)?;
        Ok(answers)
    }

    fn ask_exns(&self, case: &Case, answers: &mut BTreeMap<Subject, Answers>) -> Result<(), String> {
        let (world, reports) = self.run(case, Texts::Rust)?;
        for (subject, standing) in reports {
            let mut found = Answers::default();
            let exn = match standing {
                Standing::Report(exn) => {
                    let identity = Identity::of(&world, &raised_in_tree(exn.frame()));
                    found.readings.push((Via::Exn, readings::of_exn(&exn, &identity)));
                    exn
                }
                Standing::Chain(error) => error.into_exn(),
            };
            found.nodes = flattening(&world, exn);
            answers.insert(subject, found);
        }
        Ok(())
    }

    fn ask_errors(&self, case: &Case, answers: &mut BTreeMap<Subject, Answers>) -> Result<(), String> {
        let (world, reports) = self.run(case, Texts::Rust)?;
        for (subject, standing) in reports {
            let error = standing.into_error();
            let identity = Identity::of(&world, &raised_in_error(&error));
            let found = answers.entry(subject).or_default();
            found.readings.push((Via::Error, readings::of_error(&error, &identity)));
            found.frames = frames(&world, &error.into_exn());
        }
        Ok(())
    }

    /// Prints show the host's texts. A table's records have those of the Rust types, so that the errors themselves
    /// are printed, and their stand-ins too, which have to agree; over the drive host only the stand-ins.
    fn ask_prints(&self, case: &Case, answers: &mut BTreeMap<Subject, Answers>) -> Result<(), String> {
        let (world, stand_ins) = self.run(case, Texts::Host)?;
        let real = if world.host.is_drive() { None } else { Some(self.run(case, Texts::Rust)?.1) };
        let told: Vec<_> =
            stand_ins.into_iter().map(|(subject, standing)| (subject, printed(&world, standing))).collect();
        if let Some(real) = real {
            let shown = real.into_iter().map(|(_, standing)| printed(&world, standing));
            for (shown, (subject, told)) in shown.zip(&told) {
                if shown.iter().ne(told) {
                    return Err(format!("case {}: stand-ins print {subject:?} otherwise", case.name));
                }
            }
        }
        for (subject, told) in told {
            answers.entry(subject).or_default().prints = told;
        }
        Ok(())
    }

    fn run(&self, case: &Case, texts: Texts) -> Result<(World, Vec<(Subject, Standing)>), String> {
        let mut world = World::after(case, self.steps, texts)?;
        let mut standing: Vec<(Subject, Standing)> = Vec::new();
        let reports = std::mem::take(&mut world.reports);
        standing.extend(reports.into_iter().map(|(name, exn)| (Subject::Report(name), Standing::Report(exn))));
        for (name, row) in std::mem::take(&mut world.baskets) {
            let row = row.into_iter().enumerate();
            standing.extend(row.map(|(index, exn)| (Subject::InBasket(name, index), Standing::Report(exn))));
        }
        let chains = std::mem::take(&mut world.chains);
        standing.extend(chains.into_iter().map(|(name, error)| (Subject::Chain(name), Standing::Chain(error))));
        if let Some(only) = self.only {
            standing.retain(|(subject, _)| *subject == Subject::Report(only));
        }
        Ok((world, standing))
    }
}

/// A report or a chain that stands.
enum Standing {
    Report(Exn),
    Chain(Error),
}

impl Standing {
    fn into_error(self) -> Error {
        match self {
            Standing::Report(exn) => exn.into_error(),
            Standing::Chain(error) => error,
        }
    }
}

fn flattening(world: &World, exn: Exn) -> Vec<Node> {
    let raised = raised_in_tree(exn.frame());
    let identity = Identity::of(world, &raised);
    let source_chain = |(_, location): &Raised<'_>| {
        let frame = world.frame_at(location);
        (frame, world.host.source_chain(world.made(frame).error))
    };
    let source_chains: HashMap<usize, Vec<ErrorNumber>> = raised.iter().map(source_chain).collect();
    // From here on the chain owns the error objects; those that are sources stay at their addresses.
    let chain = exn.into_chain();
    let node = |node: &ChainNode<'_>| {
        let id = identity.chain_node(world, node);
        let place = world.made(world.frame_at(node.location)).place;
        Node { id, error: source_chains[&id.frame][id.depth], place, parent: node.parent }
    };
    let nodes: Vec<Node> = chain_nodes(&chain).iter().map(node).collect();
    let distinct: HashSet<NodeId> = nodes.iter().map(|node| node.id).collect();
    assert_eq!(distinct.len(), nodes.len(), "a flattening has each node once");
    nodes
}

fn frames(world: &World, exn: &Exn) -> Vec<Frame> {
    let mut frames = Vec::new();
    let mut level = vec![(exn.frame(), None)];
    while !level.is_empty() {
        let mut below = Vec::new();
        for (frame, parent) in level {
            let at = world.made(world.frame_at(frame.location()));
            below.extend(frame.children().iter().map(|child| (child, Some(frames.len()))));
            frames.push(Frame { error: at.error, place: at.place, parent });
        }
        level = below;
    }
    frames
}

/// A chain has no tree print: it is rebuilt first.
fn printed(world: &World, standing: Standing) -> Vec<(Via, Print)> {
    let mut prints = Vec::new();
    let is_chain = matches!(standing, Standing::Chain(_));
    if let Standing::Report(exn) = &standing {
        prints.extend(prints::of_exn(world, exn).into_iter().map(|print| (Via::Exn, print)));
    }
    let error = standing.into_error();
    prints.extend(prints::of_error(world, &error).into_iter().map(|print| (Via::Error, print)));
    prints.retain(|(_, print)| !(is_chain && print.form == Form::Tree));
    prints
}
