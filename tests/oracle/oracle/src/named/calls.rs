//! What named calls are made of: operations, each with its answer beside it.

use face::{Call, Limits, Modes, Options};
use maker::{Calls, Operation};

use super::streams::{LIMITS, Sent, bytes, packets, short};

#[derive(Debug, Clone, PartialEq, Eq)]
pub struct NamedCalls {
    pub name: String,
    pub case: Calls,
    /// What each operation is answered, or the start's refusal.
    pub answer: Result<Vec<Reply>, u8>,
}

/// The answer to an operation.
#[derive(Debug, Clone, PartialEq, Eq)]
pub enum Reply {
    Push(Result<Call, u8>),
    Dropped(u32),
}

/// An operation and its answer.
pub(super) type Step = (Operation, Reply);

pub(super) fn calls(name: impl Into<String>, options: Options, steps: Vec<Step>) -> NamedCalls {
    let (operations, answer) = steps.into_iter().unzip();
    NamedCalls {
        name: name.into(),
        case: Calls {
            limits: LIMITS,
            options,
            modes: Modes::OFF,
            operations,
        },
        answer: Ok(answer),
    }
}

/// A start that is refused by this number, and operations behind it that are read past.
pub(super) fn refused(name: &str, limits: Limits, options: Options, number: u8) -> NamedCalls {
    let behind = vec![asked(0), lent(5, short(), Err(number)), asked(0)];
    let mut calls = calls(name, options, behind);
    calls.case.limits = limits;
    calls.answer = Err(number);
    calls
}

/// A push of this chunk, with an output of this length.
pub(super) fn lent(room: usize, chunk: Vec<u8>, answer: Result<Call, u8>) -> Step {
    (Operation::Push { room, chunk }, Reply::Push(answer))
}

/// A push of these packets, with an output that is long enough.
pub(super) fn sent(all: &[Sent]) -> Step {
    lent(LIMITS.work, bytes(all), Ok(packets(all)))
}

/// So many identifiers are dropped.
pub(super) fn asked(dropped: u32) -> Step {
    (Operation::Dropped, Reply::Dropped(dropped))
}
