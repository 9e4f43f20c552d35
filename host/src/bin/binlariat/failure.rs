//! What the command says when it can't do what was asked, and its exit status.

use binlariat::Refusal;

pub struct Failure {
    pub status: u8,
    pub message: String,
}

impl Failure {
    /// A mistake in how the command was called.
    pub fn usage(what: impl Into<String>) -> Self {
        Self { status: 64, message: format!("{}\nTry 'binlariat --help'.", what.into()) }
    }

    /// A mistake in a file of the user's, or a file that can't be used.
    pub fn file(what: impl Into<String>) -> Self {
        Self { status: 64, message: what.into() }
    }

    /// A refusal of the library, with what to do about it.
    pub fn refused(name: &str, refusal: Refusal, advice: &str) -> Self {
        let gap = if advice.is_empty() { "" } else { "\n  " };
        Self {
            status: refusal.number(),
            message: format!("{name}: refused with {}: {refusal}{gap}{advice}", refusal.number()),
        }
    }
}
