//! The command `bench [WORD..]`: the proved code, compiled for this machine, against the original, in one run. Prints for
//! each row the time of both and their ratio, for whole streams a table, and for streams of fragments how many bytes move;
//! given words, only what has them all. A row has the words of its name, and its group: narrowing, learning, rules or calls.
//! A line of the table has `table`, its stream and `chunk SIZE`, as `table nulls of 188 chunk 32768`, one on moves has
//! `moves` and its stream. The word `short` is for the lines with chunks of 32,768 and the calls. `tests/bench` builds and
//! runs it.

#[cfg(driver)]
mod broadcast;
#[cfg(driver)]
mod calls;
#[cfg(driver)]
mod known;
#[cfg(driver)]
mod learning;
#[cfg(driver)]
mod measure;
#[cfg(driver)]
mod moves;
#[cfg(driver)]
mod narrowing;
#[cfg(driver)]
mod passage;
#[cfg(driver)]
mod proved;
#[cfg(any(driver, test))]
#[cfg_attr(not(driver), allow(dead_code))]
mod room;
#[cfg(driver)]
mod rules;
#[cfg(any(driver, test))]
#[cfg_attr(not(driver), allow(dead_code))]
mod streams;
#[cfg(driver)]
mod table;

use std::process::ExitCode;

/// The rows, one for each thing that is measured (`measure::Row`), then the table, then the moves.
#[cfg(driver)]
fn main() -> ExitCode {
    let words: Vec<String> = std::env::args().skip(1).collect();
    let asked = |name: &str| words.iter().all(|word| name.contains(word));
    let group = |more: &str, mut rows: Vec<measure::Row>| {
        rows.retain(|row| asked(&format!("{more} {}", row.name)));
        rows
    };
    let rows: Vec<_> = [
        group("narrowing", narrowing::rows()),
        group("learning", learning::rows()),
        group("rules", rules::rows()),
        group("calls short", calls::rows()),
    ]
    .into_iter()
    .flatten()
    .collect();
    let mut lines = table::lines();
    lines.retain(|line| asked(&line.words()));
    let mut moves = moves::lines();
    moves.retain(|stream| asked(&moves::words(stream)));
    if rows.is_empty() && lines.is_empty() && moves.is_empty() {
        eprintln!("bench: nothing has all of these words: {}", words.join(" "));
        return ExitCode::from(2);
    }
    measure::print(rows);
    table::print(&lines);
    moves::print(&moves);
    ExitCode::SUCCESS
}

#[cfg(not(driver))]
fn main() -> ExitCode {
    eprintln!(
        "bench: built without the proved code, so there is nothing to measure; run tests/bench"
    );
    ExitCode::from(2)
}
