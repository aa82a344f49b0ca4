//! Stands in for a file that was not at hand: the one function that the crate root re-exports from it.

use std::borrow::Cow;

use crate::Message;

/// Create a diagnostic with `message`, no class and no values.
pub fn message(message: impl Into<Cow<'static, str>>) -> Message {
    Message::new(message)
}
