//! The filters that are asked, behind one face, and the words that the tests use for asking.

use face::{Call, Engine, Kind, Limits, Modes, Narrowed, Options};
use maker::Input;
use oracle::engine::Oracle;
use original::Original;
use plain::Plain;

/// Limits at which every packet fits.
pub const LIMITS: Limits = Limits {
    work: 131_078,
    total: 65_536,
    most: 65_536,
    maps: 32_768,
};

/// Runs a test with the original and with the second filter.
pub fn each(test: impl Fn(&Subject)) {
    for subject in [Subject::original(), Subject::plain()] {
        subject.run(&test);
    }
}

/// Runs a test with each filter that knows these options, all modes off: the second one, the oracle, and where it can be
/// asked the original.
pub fn each_knowing(options: Options, test: impl Fn(&Subject)) {
    each_knowing_both(options, Modes::OFF, test);
}

/// The same in these modes.
pub fn each_knowing_both(options: Options, modes: Modes, test: impl Fn(&Subject)) {
    let original = Original::knows(&options, &modes).then(Subject::original);
    let others = [Subject::plain(), Subject::oracle()];
    for subject in others.into_iter().chain(original) {
        subject.run(&test);
    }
}

/// `Engine`'s functions, and `Running` its methods, as values.
pub struct Subject {
    name: &'static str,
    pub start: fn(Limits, Options, Modes) -> Result<Run, u8>,
    pub narrow: fn(Kind, Options, Modes, u16, &[u8], usize) -> Narrowed,
}

impl Subject {
    pub fn original() -> Self {
        Self::of::<Original>("original")
    }

    pub fn plain() -> Self {
        Self::of::<Plain>("plain")
    }

    pub fn oracle() -> Self {
        Self::of::<Oracle>("oracle")
    }

    fn run(&self, test: impl Fn(&Self)) {
        // Shown where the test fails.
        println!("asked: {}", self.name);
        test(self);
    }

    fn of<E: Engine + 'static>(name: &'static str) -> Self {
        Self {
            name,
            start: |limits, options, modes| {
                E::start(limits, options, modes).map(|engine| Box::new(engine) as Run)
            },
            narrow: E::narrow,
        }
    }

    /// A filter started with `LIMITS`.
    pub fn started(&self, options: Options) -> Run {
        self.started_with(LIMITS, options)
    }

    pub fn started_with(&self, limits: Limits, options: Options) -> Run {
        (self.start)(limits, options, Modes::OFF)
            .unwrap_or_else(|number| panic!("start refused: {number}"))
    }

    /// The answer to a named case.
    pub fn answer(&self, input: &Input) -> Narrowed {
        (self.narrow)(
            input.kind,
            input.options,
            input.modes,
            input.identifier,
            &input.bytes,
            input.room,
        )
    }

    /// A table narrowed by itself; `None` is unchanged.
    pub fn table(&self, options: Options, input: &[u8]) -> Option<Vec<u8>> {
        changed((self.narrow)(
            Kind::Table,
            options,
            Modes::OFF,
            0,
            input,
            input.len(),
        ))
    }
}

/// The bytes of an answer that is not refused; `None` is unchanged.
pub fn changed(answer: Narrowed) -> Option<Vec<u8>> {
    match answer {
        Narrowed::Refused(number) => panic!("narrowing refused: {number}"),
        Narrowed::Unchanged => None,
        Narrowed::Changed { out, .. } => Some(out),
    }
}

/// A started filter.
pub type Run = Box<dyn Running>;

pub trait Running {
    fn push(&mut self, chunk: &[u8], room: usize) -> Result<Call, u8>;
    fn held(&self) -> usize;
    fn dropped(&self) -> u32;

    /// A call that is accepted.
    fn send(&mut self, chunk: &[u8]) -> Call {
        self.push(chunk, LIMITS.work)
            .unwrap_or_else(|number| panic!("call refused: {number}"))
    }

    /// Whether a packet is written as it is.
    fn passes(&mut self, packet: &[u8]) -> bool {
        let call = self.send(packet);
        assert_eq!(call.counts.accepted, 1);
        assert!(call.out.is_empty() || call.out == packet);
        !call.out.is_empty()
    }
}

impl<E: Engine> Running for E {
    fn push(&mut self, chunk: &[u8], room: usize) -> Result<Call, u8> {
        Engine::push(self, chunk, room)
    }

    fn held(&self) -> usize {
        Engine::held(self)
    }

    fn dropped(&self) -> u32 {
        Engine::dropped(self)
    }
}
