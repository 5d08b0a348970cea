//! The words after a command: `--name value`, and plain words in order. A name that the command does not
//! know is an error.

use std::collections::BTreeMap;
use std::ops::Range;

use face::{Modes, Options};

pub struct Arguments {
    plain: Vec<String>,
    named: BTreeMap<String, String>,
}

impl Arguments {
    /// `names` take a value, `switches` none.
    pub fn read(
        words: impl IntoIterator<Item = String>,
        names: &[&str],
        switches: &[&str],
    ) -> Result<Self, String> {
        let mut read = Self {
            plain: Vec::new(),
            named: BTreeMap::new(),
        };
        let mut words = words.into_iter();
        while let Some(word) = words.next() {
            let Some(name) = word.strip_prefix("--") else {
                read.plain.push(word);
                continue;
            };
            let value = if switches.contains(&name) {
                String::new()
            } else if names.contains(&name) {
                words.next().ok_or(format!("--{name} needs a value"))?
            } else {
                return Err(format!("--{name} is not known here"));
            };
            read.named.insert(name.to_owned(), value);
        }
        Ok(read)
    }

    pub fn plain(&self) -> Vec<&str> {
        self.plain.iter().map(String::as_str).collect()
    }

    pub fn text(&self, name: &str) -> Option<&str> {
        self.named.get(name).map(String::as_str)
    }

    pub fn has(&self, name: &str) -> bool {
        self.named.contains_key(name)
    }

    /// A number, or the one to take where it is not given.
    pub fn number<N: TryFrom<u64>>(&self, name: &str, default: N) -> Result<N, String> {
        let Some(text) = self.text(name) else {
            return Ok(default);
        };
        number(text)?
            .try_into()
            .map_err(|_| format!("--{name} {text} is too large"))
    }

    /// Numbers with commas between them; none if not given.
    pub fn numbers(&self, name: &str) -> Result<Vec<usize>, String> {
        let parts = self.text(name).into_iter().flat_map(|text| text.split(','));
        parts
            .map(|part| number(part).map(|number| number as usize))
            .collect()
    }

    /// `--seeds A..B`: A and those after it, below B.
    pub fn seeds(&self) -> Result<Range<u64>, String> {
        let text = self.text("seeds").ok_or("--seeds A..B is missing")?;
        let (from, to) = text.split_once("..").ok_or("--seeds wants A..B")?;
        Ok(number(from)?..number(to)?)
    }

    /// What is wanted: `--flags` and `--service`, as the two programs read them, or `--profile`, of the service that
    /// `--service` names, or of all.
    pub fn options(&self) -> Result<Options, String> {
        let service = self.number("service", 0)?;
        let named = self.has("service").then_some(service);
        match self.text("profile") {
            None => self.flagged(service),
            Some(_) if self.has("flags") => {
                Err("--flags and --profile exclude each other".to_owned())
            }
            Some("captions") => Ok(Options::captions_only(named)),
            Some(other) => Err(format!("--profile {other} is not captions")),
        }
    }

    fn flagged(&self, service: u16) -> Result<Options, String> {
        let flags = self.number("flags", 0)?;
        if flags > Options::MOST_FLAGS {
            return Err("--flags sets a bit above bit 4".to_owned());
        }
        Ok(Options::from_flags(flags, service))
    }

    /// `--modes plain-ip`; all off if not given.
    pub fn modes(&self) -> Result<Modes, String> {
        match self.text("modes") {
            None => Ok(Modes::OFF),
            Some("plain-ip") => Ok(Modes::PLAIN_IP),
            Some(other) => Err(format!("--modes {other} is not plain-ip")),
        }
    }

    /// `--NAME on` or `--NAME off`; `None` if not given.
    pub fn on_or_off(&self, name: &str) -> Result<Option<bool>, String> {
        match self.text(name) {
            None => Ok(None),
            Some("on") => Ok(Some(true)),
            Some("off") => Ok(Some(false)),
            Some(other) => Err(format!("--{name} {other} is neither on nor off")),
        }
    }
}

/// A number in decimal, or in hexadecimal after `0x`.
fn number(text: &str) -> Result<u64, String> {
    let read = match text.strip_prefix("0x") {
        Some(digits) => u64::from_str_radix(digits, 16),
        None => text.parse(),
    };
    read.map_err(|error| format!("{text}: {error}"))
}
