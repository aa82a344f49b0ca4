//! Answers as lines: the type that gave the answer, the question, the answer.

use std::collections::HashMap;
use std::fmt::Write as _;

use cases::case::Case;
use cases::quote::quote;

use crate::answers::{Answers, Frame, Node, Subject, Via};
use crate::identity::NodeId;
use crate::prints::{Form, Print};
use crate::readings::Readings;

/// The lines of all answers on `case`.
pub fn case(case: &Case, answers: &[(Subject, Answers)]) -> String {
    let mut lines = Lines::default();
    lines.put(format_args!("case {}", case.name));
    for (subject, answers) in answers {
        match subject {
            Subject::Report(name) => lines.put(format_args!("of {name}")),
            Subject::InBasket(name, index) => lines.put(format_args!("of {name} {index}")),
            Subject::Chain(name) => lines.put(format_args!("of {name}")),
        }
        lines.nodes(&answers.nodes);
        for (via, readings) in &answers.readings {
            lines.readings(*via, readings, &answers.nodes);
        }
        for (via, print) in &answers.prints {
            lines.print(*via, print);
        }
        lines.frames(&answers.frames);
    }
    lines.text
}

#[derive(Default)]
struct Lines {
    text: String,
}

impl Lines {
    fn put(&mut self, line: std::fmt::Arguments<'_>) {
        writeln!(self.text, "{line}").expect("a string takes every text");
    }

    fn nodes(&mut self, nodes: &[Node]) {
        self.put(format_args!("exn nodes {}", nodes.len()));
        for (index, node) in nodes.iter().enumerate() {
            let Node { error, place, .. } = node;
            let owner = if node.id.depth == 0 { "explicit" } else { "native" };
            self.put(format_args!("exn node {index} {error} {place} {owner} {}", or_none(node.parent)));
        }
    }

    fn readings(&mut self, via: Via, readings: &Readings, nodes: &[Node]) {
        let via = name(via);
        let index: HashMap<NodeId, usize> = nodes.iter().enumerate().map(|(index, node)| (node.id, index)).collect();
        let visits: Vec<usize> = readings.visits.iter().map(|node| index[node]).collect();
        let errors: Vec<usize> = visits.iter().map(|visit| nodes[*visit].error).collect();
        self.put(format_args!("{via} visits{}", row(&visits)));
        self.put(format_args!("{via} errors{}", row(&errors)));
        self.put(format_args!("{via} classes {}", readings.classes.len()));
        for (rank, subject) in &readings.classes {
            let subject = index[subject];
            self.put(format_args!("{via} class {rank} {subject} {}", nodes[subject].error));
        }
        self.put(format_args!("{via} dominant {}", or_none(readings.dominant)));
        self.put(format_args!("{via} retry {}", yes_or_no(readings.retry)));
        self.put(format_args!("{via} lenient {}", yes_or_no(readings.lenient)));
        let cause = index[&readings.cause];
        self.put(format_args!("{via} cause {cause} {}", nodes[cause].error));
    }

    fn print(&mut self, via: Via, print: &Print) {
        let via = name(via);
        let form = match print.form {
            Form::Tree => "tree",
            Form::Chain => "chain",
            Form::Inline => "inline",
        };
        self.put(format_args!("{via} {form} {}", quote(&print.text)));
        if let Some(printed) = &print.departs {
            self.put(format_args!("{via} departs {form} {}", quote(printed)));
        }
    }

    fn frames(&mut self, frames: &[Frame]) {
        self.put(format_args!("error frames {}", frames.len()));
        for (index, Frame { error, place, parent }) in frames.iter().enumerate() {
            self.put(format_args!("error frame {index} {error} {place} {}", or_none(*parent)));
        }
    }
}

fn name(via: Via) -> &'static str {
    match via {
        Via::Exn => "exn",
        Via::Error => "error",
    }
}

fn row(numbers: &[usize]) -> String {
    numbers.iter().map(|number| format!(" {number}")).collect()
}

fn or_none(number: Option<usize>) -> String {
    number.map_or("none".into(), |number| number.to_string())
}

fn yes_or_no(verdict: bool) -> &'static str {
    if verdict { "yes" } else { "no" }
}
