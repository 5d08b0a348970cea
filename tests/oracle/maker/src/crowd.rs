//! A scene of many messages at a time: they come in fragments that take turns in any order, in a fragment room that is just
//! long enough for all that is held, or a byte too short.

use std::collections::VecDeque;

use face::Limits;

use crate::fragments::{NEWS_LEAST, news, park, unpark};
use crate::holding::{Need, needs};
use crate::messages::{self, DATA, Place};
use crate::rng::Rng;
use crate::stage::Stage;
use crate::tags::Tag;

/// The first identifier of a crowd's data carousels; no table names them.
const CROWD: u16 = 0x3000;
/// The length of the shortest message of a crowd.
const LEAST: usize = 7;
/// How many are many.
const MANY: usize = 20;

/// Parks so many bytes that the crowd needs all the others of T, or one more.
pub(crate) fn crowd(stage: &mut Stage, limits: &Limits) {
    let contents = contents(stage, limits);
    let sent = in_turns(&mut stage.rng, contents);
    let needs = needs(sent.iter().map(|(at, payload)| (*at, &payload[..])));
    let most = needs.iter().map(|need| need.total).max().unwrap_or(0);
    let over = stage.rng.below(2);
    note(&mut stage.rng, &needs, over);
    park(stage, limits.total - most + over);
    for (identifier, payload) in &sent {
        stage.signal(*identifier, payload);
    }
    unpark(stage);
}

fn note(rng: &mut Rng, needs: &[Need], over: usize) {
    let inside = |need: &Need| need.most > 0 && need.index > 0 && need.index + 1 < need.count;
    let facts = [
        (Tag::CrowdMet, over == 0),
        (Tag::CrowdPassed, over == 1),
        (Tag::CrowdMany, needs.iter().any(|need| need.count >= MANY)),
        (Tag::CrowdGrownInside, needs.iter().any(inside)),
    ];
    for (tag, _) in facts.into_iter().filter(|(_, fact)| *fact) {
        rng.note(tag);
    }
}

/// The messages and their identifiers, together no longer than T, and none longer than M: news of a service, and data
/// carousels, which make their identifiers dropped ones where carousels are not wanted.
fn contents(stage: &mut Stage, limits: &Limits) -> Vec<(u16, Vec<u8>)> {
    let mut contents = vec![news(stage, NEWS_LEAST)];
    let rng = &mut stage.rng;
    let (few, many) = (rng.within(2..=8), rng.within(MANY..=60));
    let most = (limits.total - NEWS_LEAST) / LEAST / 2;
    let count = rng.pick(&[few, many, most]).min(most);
    let mut left = limits.total - NEWS_LEAST - count * LEAST;
    for nth in 0..count {
        let longest = (2 * left / (count - nth + 1)).min(limits.most - LEAST);
        let body = rng.some_bytes(0..=longest);
        left -= body.len();
        contents.push((CROWD + nth as u16, messages::message(DATA, &body)));
    }
    contents
}

/// All payloads of the messages. A message's own come in order; whose turn it is is left to chance, at times once all have
/// begun.
fn in_turns(rng: &mut Rng, contents: Vec<(u16, Vec<u8>)>) -> Vec<(u16, Vec<u8>)> {
    let script = |(identifier, content): (u16, Vec<u8>)| (identifier, script(rng, &content));
    let mut scripts: Vec<_> = contents.into_iter().map(script).collect();
    let mut sent = Vec::new();
    if rng.chance(30) {
        let firsts = scripts.iter_mut();
        sent.extend(firsts.filter_map(|(at, script)| Some((*at, script.pop_front()?))));
    }
    while !scripts.is_empty() {
        let nth = rng.below(scripts.len());
        match scripts[nth].1.pop_front() {
            Some(payload) => sent.push((scripts[nth].0, payload)),
            None => drop(scripts.swap_remove(nth)),
        }
    }
    sent
}

/// A message in two to four fragments. At times its first is the second one, or a whole payload comes in the place of its
/// last; in the end nothing of it is held.
fn script(rng: &mut Rng, content: &[u8]) -> VecDeque<Vec<u8>> {
    let ends = (0..rng.within(1..=3)).map(|_| rng.within(0..=content.len()));
    let mut ends: Vec<_> = ends.collect();
    ends.sort_unstable();
    let mut script = VecDeque::from(messages::fragments(0, content, &ends));
    match rng.below(12) {
        0 => {
            rng.note(Tag::CrowdFirstAgain);
            let body = rng.some_bytes(0..=content.len());
            script.push_front(messages::fragment(Place::First, 0, &body));
        }
        1 => {
            rng.note(Tag::CrowdWhole);
            script.pop_back();
            script.push_back(vec![0]);
        }
        _ => {}
    }
    script
}
