//! The questions that `Exn` and `Error` both answer.

use gix_error::{Class, Error, Exn};

use crate::errors::rank;
use crate::identity::{Identity, NodeId};

/// What one of the two types answers on a report.
#[derive(Debug)]
pub struct Readings {
    pub visits: Vec<NodeId>,
    pub classes: Vec<(usize, NodeId)>,
    pub dominant: Option<usize>,
    pub retry: bool,
    pub lenient: bool,
    pub cause: NodeId,
}

// `Exn` and `Error` have the same methods and no trait in common.
macro_rules! readings {
    ($report:expr, $identity:expr) => {
        Readings {
            visits: $report.iter_errors().map(|error| $identity.node(error)).collect(),
            classes: $report.classify().map(|found| (rank_of(found.class()), $identity.node(found.error()))).collect(),
            dominant: $report.dominant_class().map(rank_of),
            retry: $report.can_retry(),
            lenient: $report.can_retry_lenient(),
            cause: $identity.node($report.probable_cause()),
        }
    };
}

/// Ask an `Exn`.
pub fn of_exn(report: &Exn, identity: &Identity) -> Readings {
    readings!(report, identity)
}

/// Ask an `Error`.
pub fn of_error(report: &Error, identity: &Identity) -> Readings {
    readings!(report, identity)
}

fn rank_of(class: Class) -> usize {
    rank(class).0
}
