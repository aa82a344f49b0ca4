//! The inputs, as rows of plain numbers that both sides are made from.

use std::collections::VecDeque;
use std::io;

/// An error, as the library's boundary takes it.
#[repr(C)]
#[derive(Clone, Copy)]
pub struct ErrorRow {
    pub kind: u8,
    pub detail: u8,
    pub source: u32,
    pub start: u32,
    pub len: u32,
}

/// A node of a flattening, as the library's boundary takes it.
#[repr(C)]
#[derive(Clone, Copy)]
pub struct NodeRow {
    pub error: u16,
    pub native: bool,
    pub place: u32,
    pub parent: u32,
}

pub const NONE: u32 = u32::MAX;

pub const PLAIN: u8 = 0;
pub const MESSAGE: u8 = 1;
pub const MARKER: u8 = 2;
pub const IO: u8 = 4;

/// How the frames of a report hang together.
#[derive(Clone, Copy, PartialEq, Eq)]
pub enum Shape {
    /// Each frame beneath the one before.
    Chain,
    /// All frames beneath the root.
    Wide,
    /// Two children a frame on average.
    Mixed,
    /// One frame, whose error has native sources.
    Sources,
}

impl Shape {
    pub fn name(self) -> &'static str {
        match self {
            Shape::Chain => "chain",
            Shape::Wide => "wide",
            Shape::Mixed => "mixed",
            Shape::Sources => "sources",
        }
    }
}

/// A frame: its error, and the number of its parent.
#[derive(Clone, Copy)]
pub struct FrameRow {
    pub error: u16,
    pub parent: Option<usize>,
}

/// Errors with their texts, and a report over them in breadth-first order: its frames, and the nodes of its flattening.
#[derive(Default)]
pub struct Input {
    pub errors: Vec<ErrorRow>,
    pub texts: Vec<u8>,
    pub frames: Vec<FrameRow>,
    pub nodes: Vec<NodeRow>,
}

/// Numbers from a seed (splitmix64).
struct Numbers(u64);

impl Numbers {
    fn below(&mut self, end: u64) -> u64 {
        self.0 = self.0.wrapping_add(0x9e37_79b9_7f4a_7c15);
        let mut z = self.0;
        z = (z ^ (z >> 30)).wrapping_mul(0xbf58_476d_1ce4_e5b9);
        z = (z ^ (z >> 27)).wrapping_mul(0x94d0_49bb_1331_11eb);
        (z ^ (z >> 31)) % end
    }

    fn one_of<T: Copy>(&mut self, items: &[T]) -> T {
        items[self.below(items.len() as u64) as usize]
    }
}

/// Ranks of classes. Without Cancelled (0), at which the Rust stops looking.
const RANKS: [u8; 8] = [1, 2, 4, 5, 7, 8, 9, 10];

/// The classes by rank, as Rust prints them.
const CLASSES: [&str; 11] = [
    "Cancelled",
    "Corruption",
    "ResourceExhaustion(AllocationLimit)",
    "ResourceExhaustion(AllocationFailure)",
    "Validation",
    "Unsupported",
    "Unauthenticated",
    "PermissionDenied",
    "Conflict",
    "NotFound",
    "Retryable",
];

/// Io kinds by number. Without PermissionDenied, beneath which the Rust looks for a challenge.
const IO_KINDS: [(u8, io::ErrorKind); 6] = [
    (1, io::ErrorKind::NotFound),
    (3, io::ErrorKind::Unsupported),
    (5, io::ErrorKind::Interrupted),
    (6, io::ErrorKind::TimedOut),
    (8, io::ErrorKind::BrokenPipe),
    (11, io::ErrorKind::ConnectionReset),
];

pub fn io_kind(number: u8) -> io::ErrorKind {
    let known = IO_KINDS.iter().find(|(known, _)| *known == number);
    known.expect("only these kinds are made").1
}

impl Input {
    fn add(&mut self, kind: u8, detail: u8, source: Option<u16>, text: &str) -> u16 {
        let number = u16::try_from(self.errors.len()).expect("errors have 16 bits");
        self.errors.push(ErrorRow {
            kind,
            detail,
            source: source.map_or(NONE, u32::from),
            start: self.texts.len() as u32,
            len: text.len() as u32,
        });
        self.texts.extend_from_slice(text.as_bytes());
        number
    }

    fn add_plain(&mut self, source: Option<u16>) -> u16 {
        let number = self.errors.len();
        self.add(PLAIN, 0, source, &format!("gauge {number} gives no reading"))
    }

    fn add_io(&mut self, numbers: &mut Numbers, source: Option<u16>) -> u16 {
        let (number, kind) = numbers.one_of(&IO_KINDS);
        self.add(IO, number, source, &io::Error::from(kind).to_string())
    }

    /// An error of a frame: of ten, three are plain, one is plain above an io error, three are messages (one without class),
    /// one is a bare marker and two are io errors.
    fn add_mixed(&mut self, numbers: &mut Numbers) -> u16 {
        match numbers.below(10) {
            0..3 => self.add_plain(None),
            3 => {
                let source = self.add_io(numbers, None);
                self.add_plain(Some(source))
            }
            4 => {
                let number = self.errors.len();
                self.add(MESSAGE, 255, None, &format!("drive {number} does not move"))
            }
            5..7 => {
                let (number, rank) = (self.errors.len(), numbers.one_of(&RANKS));
                self.add(MESSAGE, rank, None, &format!("drive {number} does not move"))
            }
            7 => {
                let rank = numbers.one_of(&RANKS);
                self.add(MARKER, rank, None, CLASSES[usize::from(rank)])
            }
            _ => self.add_io(numbers, None),
        }
    }

    /// An error above another, whose text markers and io errors show: of eight, six are plain, one is a marker and one an
    /// io error.
    fn add_above(&mut self, numbers: &mut Numbers, source: u16) -> u16 {
        let text = self.text(source).to_owned();
        match numbers.below(8) {
            0 => {
                let rank = numbers.one_of(&RANKS);
                self.add(MARKER, rank, Some(source), &text)
            }
            1 => {
                let (number, _) = numbers.one_of(&IO_KINDS);
                self.add(IO, number, Some(source), &text)
            }
            _ => self.add_plain(Some(source)),
        }
    }

    /// A report of `size` frames, or of one frame with `size` sources. Its root is a plain error.
    pub fn new(shape: Shape, size: usize) -> Input {
        let mut input = Input::default();
        let mut numbers = Numbers(2024);
        if shape == Shape::Sources {
            let mut error = input.add_io(&mut numbers, None);
            for _ in 1..size {
                error = input.add_above(&mut numbers, error);
            }
            let error = input.add_plain(Some(error));
            input.frames.push(FrameRow { error, parent: None });
        } else {
            let error = input.add_plain(None);
            input.frames.push(FrameRow { error, parent: None });
            let mut mixed = 0;
            for i in 1..size {
                mixed = i.min(mixed + numbers.below(2) as usize).min(i - 1);
                let parent = match shape {
                    Shape::Chain => i - 1,
                    Shape::Wide => 0,
                    _ => mixed,
                };
                let error = input.add_mixed(&mut numbers);
                input.frames.push(FrameRow { error, parent: Some(parent) });
            }
        }
        input.flatten();
        input
    }

    /// One message without class.
    pub fn of_one_message() -> Input {
        let mut input = Input::default();
        input.add(MESSAGE, 255, None, "drive 0 does not move");
        input
    }

    /// Writes the nodes: breadth-first, the source of a node before its frames.
    fn flatten(&mut self) {
        enum Waiting {
            Frame(usize),
            Source(u16, u32),
        }
        let mut children = vec![Vec::new(); self.frames.len()];
        for (i, frame) in self.frames.iter().enumerate() {
            if let Some(parent) = frame.parent {
                children[parent].push(i);
            }
        }
        let mut queue = VecDeque::from([(Waiting::Frame(0), NONE)]);
        while let Some((waiting, parent)) = queue.pop_front() {
            let at = self.nodes.len() as u32;
            let (error, native, place) = match waiting {
                Waiting::Frame(i) => (self.frames[i].error, false, i as u32),
                Waiting::Source(error, place) => (error, true, place),
            };
            self.nodes.push(NodeRow { error, native, place, parent });
            let source = self.errors[usize::from(error)].source;
            if source != NONE {
                queue.push_back((Waiting::Source(source as u16, place), at));
            }
            if let Waiting::Frame(i) = waiting {
                queue.extend(children[i].iter().map(|child| (Waiting::Frame(*child), at)));
            }
        }
    }

    pub fn text(&self, error: u16) -> &str {
        let row = self.errors[usize::from(error)];
        let text = &self.texts[row.start as usize..][..row.len as usize];
        std::str::from_utf8(text).expect("texts are UTF-8")
    }
}
