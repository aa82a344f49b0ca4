//! Joins the answers of the tree build and the chain build: one line where all who answer agree.
//!
//! Reads two files of answers as the harness writes them and prints the joined answers. A question that is answered
//! differently comes out once for each, after `differs`, the build and the type.

use std::collections::BTreeSet;
use std::process::ExitCode;

/// Questions in the order in which they are printed.
const QUESTIONS: [&str; 13] = [
    "nodes", "visits", "errors", "classes", "dominant", "retry", "lenient", "cause", "tree", "chain", "inline",
    "departs", "frames",
];

/// One answer: who gave it, and its lines without the question of who.
struct Answer<'a> {
    build: &'static str,
    via: &'a str,
    question: &'static str,
    lines: Vec<&'a str>,
}

/// The answers of one build on one subject.
struct Block<'a> {
    heading: &'a str,
    answers: Vec<Answer<'a>>,
}

#[derive(Default)]
struct Tally {
    cases: usize,
    reports: usize,
    answers: usize,
    differing: usize,
    departing: usize,
}

fn main() -> ExitCode {
    let paths: Vec<String> = std::env::args().skip(1).collect();
    match merge(&paths) {
        Ok((text, tally)) => {
            print!("{text}");
            eprintln!(
                "{} cases, {} reports, {} answers compared, {} questions answered differently, {} prints that depart",
                tally.cases, tally.reports, tally.answers, tally.differing, tally.departing
            );
            ExitCode::SUCCESS
        }
        Err(why) => {
            eprintln!("{why}");
            ExitCode::FAILURE
        }
    }
}

fn merge(paths: &[String]) -> Result<(String, Tally), String> {
    let [tree, chain] = paths else { return Err("usage: merge TREE-ANSWERS CHAIN-ANSWERS".into()) };
    let read = |path: &String| std::fs::read_to_string(path).map_err(|why| format!("{path}: {why}"));
    let (tree, chain) = (read(tree)?, read(chain)?);
    let (tree, chain) = (blocks(&tree, "tree")?, blocks(&chain, "chain")?);
    if !tree.iter().map(|block| block.heading).eq(chain.iter().map(|block| block.heading)) {
        return Err("the two builds did not answer on the same cases".into());
    }
    let mut text = String::new();
    let mut tally = Tally::default();
    for (tree, chain) in tree.iter().zip(&chain) {
        if tree.heading.starts_with("case ") {
            tally.cases += 1;
        } else {
            tally.reports += 1;
        }
        text += tree.heading;
        text.push('\n');
        for question in QUESTIONS {
            let answers = tree.answers.iter().chain(&chain.answers).filter(|answer| answer.question == question);
            tally.put(&answers.collect::<Vec<_>>(), &mut text);
        }
    }
    Ok((text, tally))
}

fn blocks<'a>(text: &'a str, build: &'static str) -> Result<Vec<Block<'a>>, String> {
    let mut blocks: Vec<Block<'a>> = Vec::new();
    for line in text.lines() {
        if line.starts_with("case ") || line.starts_with("of ") {
            blocks.push(Block { heading: line, answers: Vec::new() });
            continue;
        }
        let block = blocks.last_mut().ok_or("an answer stands before its case")?;
        let (via, line) = line.split_once(' ').ok_or_else(|| format!("no answer: {line}"))?;
        let question = question(line).ok_or_else(|| format!("no such question: {line}"))?;
        match block.answers.last_mut() {
            Some(answer) if answer.via == via && answer.question == question => answer.lines.push(line),
            _ => block.answers.push(Answer { build, via, question, lines: vec![line] }),
        }
    }
    Ok(blocks)
}

fn question(line: &str) -> Option<&'static str> {
    let word = match line.split(' ').next()? {
        "node" => "nodes",
        "class" => "classes",
        "frame" => "frames",
        word => word,
    };
    QUESTIONS.into_iter().find(|question| *question == word)
}

impl Tally {
    fn put(&mut self, answers: &[&Answer<'_>], text: &mut String) {
        self.answers += answers.len();
        let distinct: BTreeSet<&[&str]> = answers.iter().map(|answer| &answer.lines[..]).collect();
        self.departing += answers.iter().filter(|answer| answer.question == "departs").count();
        if distinct.len() > 1 {
            self.differing += 1;
            for answer in answers {
                for line in &answer.lines {
                    *text += &format!("differs {} {} {line}\n", answer.build, answer.via);
                }
            }
        } else if let Some(answer) = answers.first() {
            for line in &answer.lines {
                *text += line;
                text.push('\n');
            }
        }
    }
}
