//! Measuring: both sides of a row take turns, and the median of their runs counts. The clock is that of the
//! thread, which stands still while the machine does other things.

use std::hint::black_box;

/// Runs of each side of a row, and how long a run is at least.
const RUNS: usize = 101;
const RUN_NANOSECONDS: f64 = 2e6;

/// One turn of a side: it does all the work of its row, and answers a sum of what it did.
pub type Turn = Box<dyn FnMut() -> usize>;

/// Two sides that do the same work: whoever makes a row has compared what they do.
pub struct Row {
    pub name: String,
    /// How often a turn does what the name says.
    pub times: usize,
    pub original: Turn,
    pub proved: Turn,
    /// What a turn does that is not to count, if anything, by the original and by the proved code. It is measured beside
    /// them, and its median taken away.
    pub aside: Option<[Turn; 2]>,
}

/// Measures the rows, if there are any, and prints them.
pub fn print(rows: Vec<Row>) {
    if rows.is_empty() {
        return;
    }
    println!(
        "ns for each, median of {RUNS} runs (quickest to slowest); ratio: how many times faster the proved code is"
    );
    println!("{:44}{:>26}{:>26}{:>8}", "", "original", "proved", "ratio");
    for mut row in rows {
        let [original, proved] = row.measured();
        let (name, ratio) = (row.name, original.median / proved.median);
        let (original, proved) = (original.told(), proved.told());
        println!("{name:44}{original:>26}{proved:>26}{:>8}", figure(ratio));
    }
}

impl Row {
    /// What both sides take for doing it once.
    fn measured(&mut self) -> [Times; 2] {
        let mut sides = vec![&mut self.original, &mut self.proved];
        sides.extend(self.aside.iter_mut().flatten());
        let runs = by_turns(&mut sides, RUNS);
        let once = |nth: usize, time: f64| {
            let aside = runs.get(nth + 2).map_or(0.0, |aside| aside.median);
            (time - aside) / self.times as f64
        };
        [0, 1].map(|nth| runs[nth].map(|time| once(nth, time)))
    }
}

/// What a turn of each side takes. The sides take turns, run by run.
pub fn by_turns(sides: &mut [&mut Turn], runs: usize) -> Vec<Times> {
    let turns: Vec<_> = sides.iter_mut().map(|side| turns(side)).collect();
    let mut times = vec![Vec::new(); sides.len()];
    for _ in 0..runs {
        for (nth, side) in sides.iter_mut().enumerate() {
            times[nth].push(run(side, turns[nth]) / turns[nth] as f64);
        }
    }
    times.into_iter().map(Times::of).collect()
}

/// Of some runs.
pub struct Times {
    least: f64,
    pub median: f64,
    most: f64,
}

impl Times {
    fn of(mut runs: Vec<f64>) -> Self {
        runs.sort_by(f64::total_cmp);
        Self {
            least: runs[0],
            median: runs[runs.len() / 2],
            most: runs[runs.len() - 1],
        }
    }

    fn map(&self, change: impl Fn(f64) -> f64) -> Self {
        Self {
            least: change(self.least),
            median: change(self.median),
            most: change(self.most),
        }
    }

    fn told(&self) -> String {
        let decimals = usize::from(self.median < 1e4);
        let [median, least, most] =
            [self.median, self.least, self.most].map(|time| format!("{time:.decimals$}"));
        format!("{median} ({least}-{most})")
    }
}

/// A number with three digits that count, and all of those before the point.
pub fn figure(number: f64) -> String {
    let decimals = match number {
        100.0.. => 0,
        10.0.. => 1,
        1.0.. => 2,
        0.1.. => 3,
        0.01.. => 4,
        _ => 5,
    };
    format!("{number:.decimals$}")
}

/// How many turns make a run long enough. To find out warms the side up.
fn turns(turn: &mut Turn) -> usize {
    let mut turns = 1;
    while run(turn, turns) < RUN_NANOSECONDS {
        turns *= 2;
    }
    turns
}

/// The time of some turns, in nanoseconds.
fn run(turn: &mut Turn, turns: usize) -> f64 {
    let start = now();
    for _ in 0..turns {
        black_box(turn());
    }
    now() - start
}

/// C's `timespec` on Linux with 64 bits.
#[repr(C)]
struct Time {
    seconds: i64,
    nanoseconds: i64,
}

/// Linux's number of the clock of the thread.
const THREAD_CLOCK: i32 = 3;

unsafe extern "C" {
    fn clock_gettime(clock: i32, time: *mut Time) -> i32;
}

/// The time that the thread has had, in nanoseconds.
fn now() -> f64 {
    let mut time = Time {
        seconds: 0,
        nanoseconds: 0,
    };
    // SAFETY: the function writes one `Time`, and keeps nothing.
    let status = unsafe { clock_gettime(THREAD_CLOCK, &mut time) };
    assert_eq!(status, 0, "there is a clock of the thread");
    time.seconds as f64 * 1e9 + time.nanoseconds as f64
}
