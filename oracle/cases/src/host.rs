//! What a host tells of its errors: the table host, the drive host, and the two layers.

use crate::names::{IoKind, Rank};

/// A number that names an error.
pub type ErrorNumber = usize;

/// Error numbers are below this.
pub const NUMBERS: usize = 65_536;
/// Entries that one layer holds.
pub const LAYER_ENTRIES: usize = 64;
/// The longest text of an error, in bytes.
pub const LONGEST_TEXT: usize = 255;

/// What sort of error it is.
#[derive(Clone, Copy, Debug, Eq, PartialEq)]
pub enum Kind {
    Plain,
    Message(Option<Rank>),
    Marker(Rank),
    Reserve,
    Io(IoKind),
}

/// What a host tells of one error.
#[derive(Clone, Debug, Eq, PartialEq)]
pub struct Meaning {
    pub kind: Kind,
    pub source: Option<ErrorNumber>,
    pub text: String,
}

/// The host beneath all layers.
#[derive(Clone, Debug)]
pub enum Base {
    Table(Vec<Meaning>),
    Drive,
}

/// The two sorts of layers.
#[derive(Clone, Copy, Debug, Eq, PartialEq)]
pub enum LayerKind {
    Marker,
    Io,
}

#[derive(Clone, Debug)]
struct Layer {
    kind: LayerKind,
    below: usize,
    entries: Vec<Meaning>,
}

/// A base host with the layers that stand on it.
#[derive(Clone, Debug)]
pub struct Host {
    base: Vec<Meaning>,
    is_drive: bool,
    layers: Vec<Layer>,
}

impl Host {
    pub fn new(base: &Base) -> Self {
        let (base, is_drive) = match base {
            Base::Table(records) => (records.clone(), false),
            Base::Drive => (drive_errors(), true),
        };
        Host { base, is_drive, layers: Vec::new() }
    }

    /// Whether the base is the drive host, whose io errors have texts of their own.
    pub fn is_drive(&self) -> bool {
        self.is_drive
    }

    /// All live numbers are below the span.
    pub fn span(&self) -> usize {
        match self.layers.last() {
            Some(layer) => (layer.below + LAYER_ENTRIES).min(NUMBERS),
            None => self.base.len(),
        }
    }

    /// Put a new layer on top.
    pub fn add_layer(&mut self, kind: LayerKind) -> Result<(), String> {
        if self.layers.iter().any(|layer| layer.kind == kind) {
            return Err("a case has at most one layer of each kind".into());
        }
        let below = self.span();
        self.layers.push(Layer { kind, below, entries: Vec::new() });
        Ok(())
    }

    /// Make an entry of `kind` around `source` in the topmost layer; answers its number.
    pub fn add_entry(&mut self, kind: Kind, source: ErrorNumber) -> Result<ErrorNumber, String> {
        let wrapped = self.meaning(source).ok_or_else(|| format!("error {source} is not live"))?;
        let (layer_kind, text) = match kind {
            Kind::Marker(_) => (LayerKind::Marker, String::new()),
            Kind::Io(_) => (LayerKind::Io, wrapped.text.clone()),
            _ => return Err("a layer makes markers and io errors only".into()),
        };
        let layer = self
            .layers
            .last_mut()
            .filter(|layer| layer.kind == layer_kind)
            .ok_or("the entry does not belong to the topmost layer")?;
        let number = layer.below + layer.entries.len();
        if layer.entries.len() == LAYER_ENTRIES || number >= NUMBERS {
            return Err("the layer is full".into());
        }
        layer.entries.push(Meaning { kind, source: Some(source), text });
        Ok(number)
    }

    /// What is told of `number`, if it is live.
    pub fn meaning(&self, number: ErrorNumber) -> Option<&Meaning> {
        match self.layers.iter().rev().find(|layer| number >= layer.below) {
            Some(layer) => layer.entries.get(number - layer.below),
            None => self.base.get(number),
        }
    }

    /// `number`, its source, that one's source and so on.
    pub fn source_chain(&self, number: ErrorNumber) -> Vec<ErrorNumber> {
        std::iter::successors(Some(number), |number| self.meaning(*number)?.source).collect()
    }
}

/// Number 16 times stage plus reason: a gauge, its drive, the drive's gate.
fn drive_errors() -> Vec<Meaning> {
    let error = |number: ErrorNumber| {
        let (stage, reason) = (number / 16, number % 16);
        Meaning {
            kind: if stage == 0 { Kind::Io(IoKind(reason)) } else { Kind::Plain },
            source: (stage > 0).then(|| number - 16),
            text: format!("{} {reason}", ["gauge", "drive", "gate"][stage]),
        }
    };
    (0..48).map(error).collect()
}
