//! The table: each stream in chunks of each size, through both filters and copied. A turn is the whole stream with a fresh
//! filter, so what a filter takes to start is in its time. GB/s are bytes of the stream for each nanosecond, whatever of
//! them goes out; ns a call are a turn's time by its calls, the last of which may have a shorter chunk.

use crate::measure::{by_turns, figure};
use crate::passage::Passage;
use crate::streams::{Stream, streams};

/// From the small ones that devices and networks hand out to about the greatest that a filter takes.
const CHUNKS: [usize; 6] = [188, 1_316, 4_096, 8_192, 32_768, 65_536];
/// The size of the short form.
const SHORT: usize = 32_768;
/// Fewer runs than of a row: there are many lines, and a turn is long.
const RUNS: usize = 61;
/// The width of the column of names.
const NAME: usize = 38;

pub struct Line {
    name: String,
    passage: Passage,
}

impl Line {
    /// What the line can be asked for by.
    pub fn words(&self) -> String {
        let size = self.passage.size;
        let short = if size == SHORT { " short" } else { "" };
        format!("table {} chunk {size}{short}", self.name)
    }

    fn print(&self) {
        self.passage.compared(&self.words());
        let mut sides = [
            self.passage.copied(),
            self.passage.original(),
            self.passage.proved(),
        ];
        let times = by_turns(&mut sides.each_mut(), RUNS);
        let medians: Vec<_> = times.iter().map(|times| times.median).collect();
        let (bytes, calls) = (
            self.passage.stream.len() as f64,
            self.passage.calls() as f64,
        );
        let speed = |nth: usize| figure(bytes / medians[nth]);
        let call = |nth: usize| figure(medians[nth] / calls);
        println!(
            "{:NAME$}{:>7}{:>9}{:>10}{:>9}{:>13}{:>11}{:>8}",
            self.name,
            self.passage.size,
            speed(0),
            speed(1),
            speed(2),
            call(1),
            call(2),
            figure(medians[1] / medians[2]),
        );
    }
}

pub fn lines() -> Vec<Line> {
    let line = |stream: &Stream, size| Line {
        name: stream.name.clone(),
        passage: Passage {
            stream: stream.bytes.clone(),
            options: stream.options,
            modes: stream.modes,
            total: stream.total,
            first: 0,
            size,
        },
    };
    let of_each = |stream: Stream| CHUNKS.map(|size| line(&stream, size));
    streams().into_iter().flat_map(of_each).collect()
}

/// Measures the lines, if there are any, and prints them.
pub fn print(lines: &[Line]) {
    if lines.is_empty() {
        return;
    }
    println!(
        "whole streams, median of {RUNS} runs; ratio: how many times faster the proved code is than the original"
    );
    println!(
        "{:NAME$}{:>7}{:>28}{:>24}{:>8}",
        "", "", "GB/s", "ns a call", ""
    );
    println!(
        "{:NAME$}{:>7}{:>9}{:>10}{:>9}{:>13}{:>11}{:>8}",
        "stream", "chunk", "memcpy", "original", "proved", "original", "proved", "ratio"
    );
    for line in lines {
        line.print();
    }
}
