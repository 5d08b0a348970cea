//! The format of answers: what the port's program `answers` must write for a run of cases.
//!
//! A stream's answer is the start's refusal or 0 (1 byte), and after 0 for each call: refusal 1, bytes
//! written 4, accepted 4, written 4, rewritten 4, skipped 4, held 4, lost 4, the written bytes; at the end
//! the dropped identifiers 4. Calls are answered by the start's refusal too, and after 0 for each operation: a push as
//! a call of a stream, dropped by a refusal 1, which is 0, and the dropped identifiers 4. A narrowing's answer is:
//! refusal 1, changed 1, length 4, stayed 3 x 4, went 3 x 4, the bytes. All numbers are big-endian.

use face::{Call, Counts, Engine, Limits, Modes, Narrowed, Options};

use crate::cases::{Calls, Case, Narrowing, Operation, Reader, Stream};

/// The answers of a filter to a run of cases.
pub fn answers<E: Engine>(cases: &[u8]) -> Vec<u8> {
    let mut writer = Writer::default();
    for case in Reader::new(cases) {
        match case {
            Case::Stream(stream) => writer.stream::<E>(&stream),
            Case::Calls(calls) => writer.operations::<E>(&calls),
            Case::Narrowing(narrowing) => writer.narrowing::<E>(&narrowing),
        }
    }
    writer.told
}

/// The answer to a stream in these modes, without the dropped identifiers, each of its numbers and bytes as one number.
pub fn stream_numbers<E: Engine>(case: &Stream, modes: Modes) -> Vec<u32> {
    let mut writer = Writer::default();
    writer.calls::<E>(case, modes);
    writer.told
}

/// The answer to a narrowing, each of its numbers and bytes as one number.
pub fn narrowing_numbers<E: Engine>(case: &Narrowing) -> Vec<u32> {
    let mut writer = Writer::default();
    writer.narrowing::<E>(case);
    writer.told
}

/// What answers are told in: bytes, as the format says, or numbers.
trait Unit: From<u8> {
    fn long(number: u32) -> impl IntoIterator<Item = Self>;
}

impl Unit for u8 {
    fn long(number: u32) -> impl IntoIterator<Item = Self> {
        number.to_be_bytes()
    }
}

impl Unit for u32 {
    fn long(number: u32) -> impl IntoIterator<Item = Self> {
        [number]
    }
}

#[derive(Default)]
struct Writer<U> {
    told: Vec<U>,
}

impl<U: Unit> Writer<U> {
    fn stream<E: Engine>(&mut self, case: &Stream) {
        if let Some(engine) = self.calls::<E>(case, Modes::OFF)
            && !case.cut
        {
            self.long(engine.dropped());
        }
    }

    /// The start and all calls. Gives the filter after them, unless its start was refused.
    fn calls<E: Engine>(&mut self, case: &Stream, modes: Modes) -> Option<E> {
        let mut engine = self.start::<E>(case.limits, case.options, modes)?;
        for chunk in &case.chunks {
            self.push(&mut engine, chunk, case.room);
        }
        Some(engine)
    }

    fn operations<E: Engine>(&mut self, case: &Calls) {
        let Some(mut engine) = self.start::<E>(case.limits, case.options, case.modes) else {
            return;
        };
        for operation in &case.operations {
            match *operation {
                Operation::Push { room, chunk } => self.push(&mut engine, chunk, room),
                Operation::Dropped => {
                    self.bytes(&[0]);
                    self.long(engine.dropped());
                }
            }
        }
    }

    fn start<E: Engine>(&mut self, limits: Limits, options: Options, modes: Modes) -> Option<E> {
        let started = E::start(limits, options, modes);
        self.bytes(&[started.as_ref().err().copied().unwrap_or(0)]);
        started.ok()
    }

    fn push<E: Engine>(&mut self, engine: &mut E, chunk: &[u8], room: usize) {
        match engine.push(chunk, room) {
            Ok(call) => self.call(0, &call),
            Err(number) => self.call(number, &nothing(engine.held())),
        }
    }

    fn call(&mut self, refusal: u8, call: &Call) {
        self.bytes(&[refusal]);
        let counts = &call.counts;
        for number in [
            counts.bytes,
            counts.accepted,
            counts.written,
            counts.rewritten,
            counts.skipped,
            call.held as u64,
            counts.lost,
        ] {
            self.long(u32::try_from(number).expect("a call's counts have 32 bits"));
        }
        self.bytes(&call.out);
    }

    fn narrowing<E: Engine>(&mut self, case: &Narrowing) {
        let Narrowing {
            kind,
            options,
            modes,
            identifier,
            room,
            input,
            ..
        } = *case;
        match E::narrow(kind, options, modes, identifier, input, room) {
            Narrowed::Refused(number) => self.narrowed([number, 0], &[], [[0; 3]; 2]),
            Narrowed::Unchanged => self.narrowed([0, 0], &[], [[0; 3]; 2]),
            Narrowed::Changed { out, stayed, went } => self.narrowed([0, 1], &out, [stayed, went]),
        }
    }

    /// `head` is the refusal, and whether it is changed.
    fn narrowed(&mut self, head: [u8; 2], out: &[u8], entries: [[u32; 3]; 2]) {
        self.bytes(&head);
        self.long(u32::try_from(out.len()).expect("a narrowed input has 32 bits"));
        for count in entries.as_flattened() {
            self.long(*count);
        }
        self.bytes(out);
    }

    fn bytes(&mut self, bytes: &[u8]) {
        self.told.extend(bytes.iter().copied().map(U::from));
    }

    fn long(&mut self, number: u32) {
        self.told.extend(U::long(number));
    }
}

/// What a refused call is told as: nothing but the bytes that are still held.
fn nothing(held: usize) -> Call {
    Call {
        counts: Counts::default(),
        held,
        out: Vec::new(),
    }
}
