//! The format of cases: what is handed to the port's program `answers` on its input, one case after the
//! other. This file has its one reader and its one writer. All numbers are big-endian.
//!
//! A stream is: kind 0, flags 1 byte, service 2, W 4, T 4, M 4, map room 4, output 4, number of calls 2,
//! each call's chunk length 4, then the chunks. A narrowing is: kind 1 (table), 2 (payload) or 3 (packet),
//! flags 1 byte, service 2, identifier 2, output 4, input length 4, then the input. Both have flag bits 0 to 3.
//!
//! Calls are: kind 4, wishes 1 byte (flag bits 0 to 4), modes 1, service 2, W 4, T 4, M 4, map room 4, number of
//! operations 2, then the operations: 0 (push), output 4, chunk length 4, the chunk; or 1 (dropped). A narrowing
//! with modes is: kind 7 (table), 8 (payload) or 9 (packet), wishes 1, modes 1, and then as without. Bit 0 of the modes is
//! plain IP, the others have no meaning yet.

use face::{Kind, Limits, Modes, Options};

use crate::named::{self, Requested};
use crate::orders;

/// The rooms of the port's program: what a case may ask for at most.
const WORK: usize = 131_200;
const TOTAL: usize = 1_048_576;
const MAPS: usize = 33_000;
const INPUT: usize = 131_200;
const OUTPUT: usize = 262_400;
const CALLS: usize = 1_024;
const OPERATIONS: usize = 1_024;

/// The greatest flag byte of a stream and of a narrowing without modes: other assets are wanted there.
const MOST_FLAGS: u8 = 0x0f;

#[derive(Debug, Clone, PartialEq, Eq)]
pub enum Case<'a> {
    Stream(Stream<'a>),
    Calls(Calls<'a>),
    Narrowing(Narrowing<'a>),
}

impl Case<'_> {
    pub fn options(&self) -> &Options {
        match self {
            Self::Stream(stream) => &stream.options,
            Self::Calls(calls) => &calls.options,
            Self::Narrowing(narrowing) => &narrowing.options,
        }
    }

    /// A stream has none.
    pub fn modes(&self) -> &Modes {
        match self {
            Self::Stream(_) => &Modes::OFF,
            Self::Calls(calls) => &calls.modes,
            Self::Narrowing(narrowing) => &narrowing.modes,
        }
    }
}

/// A filter that is started and pushed to.
#[derive(Debug, Clone, PartialEq, Eq)]
pub struct Stream<'a> {
    pub limits: Limits,
    pub options: Options,
    /// The length of the output, for all calls.
    pub room: usize,
    pub chunks: Vec<&'a [u8]>,
    /// The cases ended inside the chunk that would come next: no answer follows those of `chunks`.
    pub cut: bool,
}

/// A filter that is started and asked one thing after the other.
#[derive(Debug, Clone, PartialEq, Eq)]
pub struct Calls<'a> {
    pub limits: Limits,
    pub options: Options,
    pub modes: Modes,
    pub operations: Vec<Operation<'a>>,
    /// The operation that would come next is cut or none: no answer follows those of `operations`.
    pub cut: bool,
}

#[derive(Debug, Clone, Copy, PartialEq, Eq)]
pub enum Operation<'a> {
    /// `room` is the length of the output.
    Push {
        room: usize,
        chunk: &'a [u8],
    },
    Dropped,
}

impl<'a> Calls<'a> {
    /// The length of the output and the chunk of each push.
    pub fn pushes(&self) -> impl Iterator<Item = (usize, &'a [u8])> {
        self.operations
            .iter()
            .filter_map(|operation| match *operation {
                Operation::Push { room, chunk } => Some((room, chunk)),
                Operation::Dropped => None,
            })
    }
}

/// A table, payload or packet that is narrowed by itself.
#[derive(Debug, Clone, PartialEq, Eq)]
pub struct Narrowing<'a> {
    /// Whether its case has all wishes and the modes: kinds 7 to 9, else 1 to 3.
    pub with_modes: bool,
    pub kind: Kind,
    pub options: Options,
    pub modes: Modes,
    pub identifier: u16,
    pub room: usize,
    pub input: &'a [u8],
}

impl<'a> From<&'a maker::Case> for Stream<'a> {
    fn from(made: &'a maker::Case) -> Self {
        let mut rest = made.bytes.as_slice();
        let mut chunk = |length: &usize| {
            let (chunk, after) = rest.split_at(*length);
            rest = after;
            chunk
        };
        Self {
            limits: made.limits,
            options: made.options,
            room: made.room,
            chunks: made.cuts.iter().map(&mut chunk).collect(),
            cut: false,
        }
    }
}

impl<'a> From<&'a maker::Calls> for Calls<'a> {
    fn from(made: &'a maker::Calls) -> Self {
        let operation = |made: &'a maker::Operation| match made {
            maker::Operation::Push { room, chunk } => Operation::Push { room: *room, chunk },
            maker::Operation::Dropped => Operation::Dropped,
        };
        Self {
            limits: made.limits,
            options: made.options,
            modes: made.modes,
            operations: made.operations.iter().map(operation).collect(),
            cut: false,
        }
    }
}

impl<'a> From<&'a maker::Input> for Narrowing<'a> {
    fn from(made: &'a maker::Input) -> Self {
        Self {
            with_modes: false,
            kind: made.kind,
            options: made.options,
            modes: made.modes,
            identifier: made.identifier,
            room: made.room,
            input: &made.bytes,
        }
    }
}

impl<'a> Narrowing<'a> {
    pub fn with_modes(made: &'a maker::Input) -> Self {
        Self {
            with_modes: true,
            ..Self::from(made)
        }
    }
}

/// Which of a seed's cases are asked for.
#[derive(Debug, Clone, Copy)]
pub struct Selection {
    /// Its stream, or its calls.
    pub series: bool,
    /// The most narrowings.
    pub narrowings: usize,
}

/// A seed's cases as bytes: its stream, then its narrowings.
pub fn of_seed(seed: u64, selection: Selection) -> Vec<u8> {
    let mut writer = Writer::default();
    if selection.series {
        writer.stream(&Stream::from(&maker::case(seed)));
    }
    for input in maker::inputs(seed).iter().take(selection.narrowings) {
        writer.narrowing(&Narrowing::from(input));
    }
    writer.bytes
}

/// A seed's cases with any of the four wishes as bytes: its calls, then its narrowings, all in these modes. `other` leaves
/// those with that wish on, or off.
pub fn wished_of_seed(
    seed: u64,
    selection: Selection,
    modes: Modes,
    other: Option<bool>,
) -> Vec<u8> {
    let left = |options: &Options| other.is_none_or(|other| options.other == other);
    let mut writer = Writer::default();
    if selection.series {
        let calls = calls_of_seed(seed, modes);
        if left(&calls.options) {
            writer.calls(&Calls::from(&calls));
        }
    }
    let inputs = inputs_of_seed(seed, modes);
    let inputs = inputs.iter().filter(|input| left(&input.options));
    for input in inputs.take(selection.narrowings) {
        writer.narrowing(&Narrowing::with_modes(input));
    }
    writer.bytes
}

fn calls_of_seed(seed: u64, modes: Modes) -> maker::Calls {
    if modes.plain_ip {
        maker::plain_ip_calls(seed)
    } else {
        maker::calls(seed)
    }
}

fn inputs_of_seed(seed: u64, modes: Modes) -> Vec<maker::Input> {
    if modes.plain_ip {
        maker::plain_ip_inputs(seed)
    } else {
        maker::wished_inputs(seed)
    }
}

/// The named cases as bytes: narrowings, then streams, then those of the requests.
pub fn named() -> Vec<u8> {
    let mut writer = Writer::default();
    for case in named::named() {
        writer.narrowing(&Narrowing::from(&case.input));
    }
    for stream in named::streams() {
        writer.stream(&Stream::from(&stream.case));
    }
    for requested in named::requested() {
        match requested {
            Requested::Narrowing(case) => writer.narrowing(&Narrowing::with_modes(&case.input)),
            Requested::Calls(calls) => writer.calls(&Calls::from(&calls.case)),
        }
    }
    writer.bytes
}

/// The cases of all orders in which fragments can come, as bytes.
pub fn orders() -> Vec<u8> {
    let mut writer = Writer::default();
    for ordered in orders::orders() {
        writer.calls(&Calls::from(&ordered.case));
    }
    writer.bytes
}

/// The numbers of the operations.
const PUSH: u8 = 0;
const DROPPED: u8 = 1;
/// How far the kinds of narrowings with modes lie behind those without.
const WITH_MODES: u8 = 6;

/// Cases as bytes.
#[derive(Debug, Default)]
pub struct Writer {
    pub bytes: Vec<u8>,
}

impl Writer {
    pub fn stream(&mut self, case: &Stream) {
        self.bytes.push(0);
        self.options(&case.options);
        self.limits(&case.limits);
        self.long(case.room);
        self.short(case.chunks.len());
        for chunk in &case.chunks {
            self.long(chunk.len());
        }
        self.bytes.extend(case.chunks.concat());
    }

    pub fn calls(&mut self, case: &Calls) {
        self.bytes.push(4);
        self.wishes(&case.options, &case.modes);
        self.limits(&case.limits);
        self.short(case.operations.len());
        for operation in &case.operations {
            match *operation {
                Operation::Push { room, chunk } => {
                    self.bytes.push(PUSH);
                    self.long(room);
                    self.long(chunk.len());
                    self.bytes.extend(chunk);
                }
                Operation::Dropped => self.bytes.push(DROPPED),
            }
        }
    }

    pub fn narrowing(&mut self, case: &Narrowing) {
        let kind = match case.kind {
            Kind::Table => 1,
            Kind::Payload => 2,
            Kind::Packet => 3,
        };
        if case.with_modes {
            self.bytes.push(kind + WITH_MODES);
            self.wishes(&case.options, &case.modes);
        } else {
            assert!(case.modes.all_off(), "this kind has no place for modes");
            self.bytes.push(kind);
            self.options(&case.options);
        }
        self.bytes.extend(case.identifier.to_be_bytes());
        self.long(case.room);
        self.long(case.input.len());
        self.bytes.extend(case.input);
    }

    fn options(&mut self, options: &Options) {
        let flags = options.flags();
        assert!(
            flags <= MOST_FLAGS,
            "this kind has no place for {options:?}"
        );
        self.bytes.push(flags);
        self.service(options);
    }

    /// All wishes, and the modes.
    fn wishes(&mut self, options: &Options, modes: &Modes) {
        self.bytes.extend([options.flags(), modes.bits()]);
        self.service(options);
    }

    fn service(&mut self, options: &Options) {
        let service = options.service.unwrap_or(0);
        self.bytes.extend(service.to_be_bytes());
    }

    fn limits(&mut self, limits: &Limits) {
        for length in [limits.work, limits.total, limits.most, limits.maps] {
            self.long(length);
        }
    }

    fn short(&mut self, number: usize) {
        let number = u16::try_from(number).expect("calls and operations have 16 bits");
        self.bytes.extend(number.to_be_bytes());
    }

    fn long(&mut self, number: usize) {
        let number = u32::try_from(number).expect("lengths have 32 bits");
        self.bytes.extend(number.to_be_bytes());
    }
}

/// Cases from bytes. The first that can't be read ends them.
pub struct Reader<'a> {
    rest: &'a [u8],
}

impl<'a> Reader<'a> {
    pub fn new(bytes: &'a [u8]) -> Self {
        Self { rest: bytes }
    }
}

impl<'a> Iterator for Reader<'a> {
    type Item = Case<'a>;

    fn next(&mut self) -> Option<Case<'a>> {
        let case = self.case();
        let ends = match &case {
            None => true,
            Some(Case::Stream(stream)) => stream.cut,
            Some(Case::Calls(calls)) => calls.cut,
            Some(Case::Narrowing(_)) => false,
        };
        if ends {
            self.rest = &[];
        }
        case
    }
}

/// `None`: the head is cut short, names another kind, sets a flag or mode bit that has no meaning there or passes a room.
impl<'a> Reader<'a> {
    fn case(&mut self) -> Option<Case<'a>> {
        match self.byte()? {
            0 => self.stream().map(Case::Stream),
            4 => self.calls().map(Case::Calls),
            kind @ (1..=3 | 7..=9) => self.narrowing(kind).map(Case::Narrowing),
            _ => None,
        }
    }

    fn stream(&mut self) -> Option<Stream<'a>> {
        let options = self.options()?;
        let limits = self.limits()?;
        let room = self.length(OUTPUT)?;
        let calls = usize::from(self.number()?);
        let lengths = self.lengths(calls)?;
        let chunks: Vec<_> = lengths
            .iter()
            .map_while(|&length| self.bytes(length))
            .collect();
        Some(Stream {
            limits,
            options,
            room,
            cut: chunks.len() < calls,
            chunks,
        })
    }

    fn lengths(&mut self, calls: usize) -> Option<Vec<usize>> {
        if calls > CALLS {
            return None;
        }
        (0..calls).map(|_| self.length(INPUT)).collect()
    }

    fn calls(&mut self) -> Option<Calls<'a>> {
        let (options, modes) = self.wishes()?;
        let limits = self.limits()?;
        let count = usize::from(self.number()?);
        if count > OPERATIONS {
            return None;
        }
        let operations: Vec<_> = (0..count).map_while(|_| self.operation()).collect();
        Some(Calls {
            limits,
            options,
            modes,
            cut: operations.len() < count,
            operations,
        })
    }

    fn operation(&mut self) -> Option<Operation<'a>> {
        match self.byte()? {
            PUSH => {
                let room = self.length(OUTPUT)?;
                let length = self.length(INPUT)?;
                let chunk = self.bytes(length)?;
                Some(Operation::Push { room, chunk })
            }
            DROPPED => Some(Operation::Dropped),
            _ => None,
        }
    }

    fn narrowing(&mut self, kind: u8) -> Option<Narrowing<'a>> {
        let with_modes = kind > WITH_MODES;
        let (options, modes) = if with_modes {
            self.wishes()?
        } else {
            (self.options()?, Modes::OFF)
        };
        let kind = match kind % WITH_MODES {
            1 => Kind::Table,
            2 => Kind::Payload,
            _ => Kind::Packet,
        };
        let identifier = self.number()?;
        let room = self.length(OUTPUT)?;
        let length = self.length(INPUT)?;
        Some(Narrowing {
            with_modes,
            kind,
            options,
            modes,
            identifier,
            room,
            input: self.bytes(length)?,
        })
    }

    fn options(&mut self) -> Option<Options> {
        let flags = self.byte()?;
        let service = self.number()?;
        (flags <= MOST_FLAGS).then(|| Options::from_flags(flags, service))
    }

    fn wishes(&mut self) -> Option<(Options, Modes)> {
        let flags = self.byte()?;
        let modes = self.byte()?;
        let service = self.number()?;
        let known = flags <= Options::MOST_FLAGS;
        let options = known.then(|| Options::from_flags(flags, service))?;
        Some((options, Modes::from_bits(modes)?))
    }

    fn limits(&mut self) -> Option<Limits> {
        Some(Limits {
            work: self.length(WORK)?,
            total: self.length(TOTAL)?,
            most: self.length(usize::MAX)?,
            maps: self.length(MAPS)?,
        })
    }

    fn bytes(&mut self, length: usize) -> Option<&'a [u8]> {
        let (taken, rest) = self.rest.split_at_checked(length)?;
        self.rest = rest;
        Some(taken)
    }

    fn byte(&mut self) -> Option<u8> {
        Some(self.bytes(1)?[0])
    }

    fn number(&mut self) -> Option<u16> {
        let taken = self.bytes(2)?;
        Some(u16::from_be_bytes([taken[0], taken[1]]))
    }

    /// A length of 32 bits, up to the room that it is for.
    fn length(&mut self, room: usize) -> Option<usize> {
        let taken = self.bytes(4)?;
        let length = u32::from_be_bytes([taken[0], taken[1], taken[2], taken[3]]) as usize;
        (length <= room).then_some(length)
    }
}
