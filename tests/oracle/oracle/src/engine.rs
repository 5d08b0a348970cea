//! Who answers: the original, the second filter, or the oracle, which is the original wherever that can be asked and
//! the second filter elsewhere.

use face::{Call, Engine, Kind, Limits, Modes, Narrowed, Options};
use original::Original;
use plain::Plain;

/// The filter that a command is told to ask.
#[derive(Debug, Clone, Copy, PartialEq, Eq)]
pub enum By {
    Original,
    Plain,
    Oracle,
}

impl By {
    /// By its name; the oracle where none is given.
    pub fn named(name: Option<&str>) -> Result<Self, String> {
        match name {
            None | Some("oracle") => Ok(Self::Oracle),
            Some("original") => Ok(Self::Original),
            Some("plain") => Ok(Self::Plain),
            Some(other) => Err(format!("--by {other} is no oracle, original or plain")),
        }
    }

    /// An error where the filter does not know these options or modes.
    pub fn must_know(self, options: &Options, modes: &Modes) -> Result<(), String> {
        if self != Self::Original || Original::knows(options, modes) {
            return Ok(());
        }
        let why = if modes.all_off() {
            "where other assets are not wanted"
        } else {
            "with a mode on"
        };
        Err(format!("the original can't be asked {why}"))
    }
}

/// The original if it knows the options and modes, else the second filter.
pub enum Oracle {
    Original(Box<Original>),
    Plain(Box<Plain>),
}

impl Engine for Oracle {
    fn start(limits: Limits, options: Options, modes: Modes) -> Result<Self, u8> {
        if Original::knows(&options, &modes) {
            let filter = Original::start(limits, options, modes)?;
            Ok(Self::Original(Box::new(filter)))
        } else {
            let filter = Plain::start(limits, options, modes)?;
            Ok(Self::Plain(Box::new(filter)))
        }
    }

    fn push(&mut self, chunk: &[u8], room: usize) -> Result<Call, u8> {
        match self {
            Self::Original(filter) => filter.push(chunk, room),
            Self::Plain(filter) => filter.push(chunk, room),
        }
    }

    fn held(&self) -> usize {
        match self {
            Self::Original(filter) => filter.held(),
            Self::Plain(filter) => filter.held(),
        }
    }

    fn dropped(&self) -> u32 {
        match self {
            Self::Original(filter) => filter.dropped(),
            Self::Plain(filter) => filter.dropped(),
        }
    }

    fn narrow(
        kind: Kind,
        options: Options,
        modes: Modes,
        identifier: u16,
        input: &[u8],
        room: usize,
    ) -> Narrowed {
        let narrow = if Original::knows(&options, &modes) {
            Original::narrow
        } else {
            Plain::narrow
        };
        narrow(kind, options, modes, identifier, input, room)
    }
}
