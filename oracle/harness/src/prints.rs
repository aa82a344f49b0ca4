//! The prints of a report, and what the host's texts make of them.

use cases::case::Case;
use cases::host::{Base, Host, Kind};
use cases::quote::quote;
use gix_error::types::probe::{Raised, raised_in_error, raised_in_tree};
use gix_error::{Error, Exn};

use crate::errors::{Texts, build};
use crate::world::World;

/// The three printed forms.
#[derive(Clone, Copy, Debug, Eq, PartialEq)]
pub enum Form {
    Tree,
    Chain,
    Inline,
}

/// One print.
#[derive(Clone, Debug, Eq, PartialEq)]
pub struct Print {
    pub form: Form,
    pub text: String,
    /// What the Rust printed, where it is not the root's text on a report of markers alone.
    pub departs: Option<String>,
}

/// The prints that an `Exn` gives.
pub fn of_exn(world: &World, exn: &Exn) -> Vec<Print> {
    let alone = MarkersAlone::of(world, &raised_in_tree(exn.frame()));
    vec![print(Form::Tree, format!("{exn:?}"), alone.as_ref())]
}

/// The prints that an `Error` gives: the tree in the tree form, the two chain prints in the chain form.
pub fn of_error(world: &World, error: &Error) -> Vec<Print> {
    let alone = MarkersAlone::of(world, &raised_in_error(error));
    let report = format!("{error:?}");
    if cfg!(feature = "tree") {
        return vec![print(Form::Tree, report, alone.as_ref())];
    }
    vec![print(Form::Chain, report, alone.as_ref()), print(Form::Inline, format!("{error:#}"), alone.as_ref())]
}

/// A report of markers alone prints its root's text, which is the host's to tell: an entry of the marker layer has
/// none, while the Rust object displays what it is put around.
struct MarkersAlone {
    displayed: String,
    told: String,
}

impl MarkersAlone {
    fn of(world: &World, raised: &[Raised<'_>]) -> Option<Self> {
        let number = |raised: &Raised<'_>| world.made(world.frame_at(raised.1)).error;
        let all_markers = raised.iter().flat_map(|raised| world.host.source_chain(number(raised))).all(
            |number| matches!(world.host.meaning(number), Some(meaning) if matches!(meaning.kind, Kind::Marker(_))),
        );
        let root = raised.first().filter(|_| all_markers)?;
        let told = world.host.meaning(number(root))?.text.clone();
        Some(MarkersAlone { displayed: root.0.to_string(), told })
    }
}

fn print(form: Form, printed: String, alone: Option<&MarkersAlone>) -> Print {
    match alone {
        None => Print { form, text: printed, departs: None },
        Some(alone) => {
            Print { form, text: alone.told.clone(), departs: (printed != alone.displayed).then_some(printed) }
        }
    }
}

/// Refuse a table whose records do not have the texts that the Rust types display.
pub fn check_texts(case: &Case) -> Result<(), String> {
    let Base::Table(records) = &case.base else { return Ok(()) };
    let host = Host::new(&case.base);
    for (number, record) in records.iter().enumerate() {
        if matches!(record.kind, Kind::Plain | Kind::Message(_)) {
            continue;
        }
        let displayed = build(&host, number, Texts::Rust).boxed().to_string();
        if displayed != record.text {
            let (line, displayed) = (case.record_lines[number], quote(&displayed));
            return Err(format!("case {} line {line}: the text in Rust is {displayed}", case.name));
        }
    }
    Ok(())
}
