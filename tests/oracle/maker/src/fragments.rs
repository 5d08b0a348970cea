//! Scenes about fragments: M and T just met and just passed, fragments out of order,
//! and fragments of more identifiers than are held.

use face::Limits;

use crate::crowd;
use crate::limits;
use crate::messages::{self, Pa, Place};
use crate::rng::Rng;
use crate::signalling;
use crate::stage::Stage;
use crate::tags::Tag;

/// The length of the shortest message that `news` makes.
pub(crate) const NEWS_LEAST: usize = 77;
/// Identifiers of fragments that only take up room.
const PARKED: u16 = 0x2000;
const HELD_MOST: u16 = 256;

/// T and M so small that a few packets reach them.
pub(crate) fn limits(rng: &mut Rng) -> Limits {
    let most = rng.within(NEWS_LEAST + 1..=1_200);
    Limits {
        total: most + rng.pick(&[0, 1, 2, 50, 1_000, 1_000]),
        most,
        work: rng.within(20_000..=limits::WORK_MOST),
        ..limits::ample()
    }
}

/// Shows both sides of each limit, in some order, and after each what was learned. None leaves anything held, so that a
/// crowd finds all of the room.
pub(crate) fn edges(stage: &mut Stage, limits: &Limits) {
    stage.announce_plainly();
    for _ in 0..stage.rng.within(4..=8) {
        match stage.rng.below(7) {
            0 => most(stage, limits),
            1 => total(stage, limits),
            2 => first_past_most(stage, limits),
            3 => first_at_total(stage, limits),
            4 => own_first(stage, limits),
            5 => refused_first(stage, limits),
            _ => disorder(stage),
        }
        stage.probe();
    }
    if stage.rng.chance(70) {
        crowd::crowd(stage, limits);
        stage.probe();
    }
    let steps = stage.rng.within(5..=60);
    stage.play(steps);
}

/// Fragments that come in no good order, and after each what was learned.
pub(crate) fn disorders(stage: &mut Stage) {
    stage.announce_plainly();
    for _ in 0..stage.rng.within(4..=8) {
        disorder(stage);
        stage.probe();
    }
    let steps = stage.rng.within(5..=60);
    stage.play(steps);
}

fn disorder(stage: &mut Stage) {
    if stage.rng.chance(70) {
        interrupted(stage);
    } else {
        orphan(stage);
    }
}

/// A message of exactly this length about some service, different from what was sent before.
pub(crate) fn news(stage: &mut Stage, length: usize) -> (u16, Vec<u8>) {
    let table = signalling::news(&mut stage.rng, &stage.broadcast);
    let mut pa = Pa::of(vec![table]);
    pa.after = stage.rng.bytes(length - pa.write().len());
    let services = &stage.broadcast.services;
    let identifier = match services.len() {
        0 => PARKED - 1,
        count => services[stage.rng.below(count)].mpt,
    };
    (identifier, pa.write())
}

/// The content in two to four fragments.
fn send(stage: &mut Stage, identifier: u16, content: &[u8]) {
    let mut ends: Vec<usize> = (0..stage.rng.within(1..=3))
        .map(|_| stage.rng.below(content.len()))
        .collect();
    ends.sort_unstable();
    for payload in messages::fragments(0, content, &ends) {
        stage.signal(identifier, &payload);
    }
}

/// All of the content in the first fragment, and an empty last one.
fn send_as_first(stage: &mut Stage, identifier: u16, content: &[u8]) {
    for payload in messages::fragments(0, content, &[content.len()]) {
        stage.signal(identifier, &payload);
    }
}

/// Holds this many bytes in fragments of identifiers that nobody names, often most of them in one.
pub(crate) fn park(stage: &mut Stage, mut bytes: usize) {
    let alone = stage.rng.chance(50);
    for nth in 0..3 {
        let size = if nth == 2 || alone {
            bytes
        } else {
            stage.rng.within(0..=bytes)
        };
        bytes -= size;
        let body = stage.rng.bytes(size);
        let first = messages::fragment(Place::First, 0, &body);
        stage.signal(PARKED + nth, &first);
    }
}

/// Gives the parked bytes back; a whole payload ends the fragment of its identifier.
pub(crate) fn unpark(stage: &mut Stage) {
    for nth in 0..3 {
        stage.signal(PARKED + nth, &[0]);
    }
}

fn most(stage: &mut Stage, limits: &Limits) {
    let over = stage.rng.below(2).min(limits.total - limits.most);
    stage.rng.note([Tag::MostMet, Tag::MostPassed][over]);
    let (identifier, content) = news(stage, limits.most + over);
    send(stage, identifier, &content);
}

/// Twice, so that the room given back by the first message is used again.
fn total(stage: &mut Stage, limits: &Limits) {
    let length = stage.rng.within(NEWS_LEAST..=limits.most);
    park(stage, limits.total - length);
    for over in [0, 0, 1] {
        let length = (length + over).min(limits.most);
        let (identifier, content) = news(stage, length);
        send(stage, identifier, &content);
        stage.probe();
    }
    stage.rng.note(Tag::TotalMet);
    if length < limits.most {
        stage.rng.note(Tag::TotalPassed);
    }
    unpark(stage);
}

fn first_past_most(stage: &mut Stage, limits: &Limits) {
    let over = stage.rng.below(2).min(limits.total - limits.most);
    stage.rng.note([Tag::FirstAtMost, Tag::FirstPastMost][over]);
    let (identifier, content) = news(stage, limits.most + over);
    send_as_first(stage, identifier, &content);
}

fn first_at_total(stage: &mut Stage, limits: &Limits) {
    let over = stage.rng.below(2);
    let length = stage.rng.within(NEWS_LEAST..=limits.most);
    stage
        .rng
        .note([Tag::FirstAtTotal, Tag::FirstPastTotal][over]);
    park(stage, limits.total + over - length);
    let (identifier, content) = news(stage, length);
    send_as_first(stage, identifier, &content);
    unpark(stage);
}

/// A first that has room only once its identifier's old fragment is gone, or not even then.
fn own_first(stage: &mut Stage, limits: &Limits) {
    let over = stage.rng.below(2);
    stage.rng.note([Tag::OwnFirstHeld, Tag::OwnFirstLost][over]);
    let (identifier, content) = news(stage, limits.most);
    park(stage, limits.total - content.len());
    let old = messages::fragments(0, &content, &[content.len() - 1]);
    stage.signal(identifier, &old[0]);
    let (_, mut next) = news(stage, limits.most);
    next.extend(vec![0; over]);
    send_as_first(stage, identifier, &next);
    stage.signal(identifier, &old[1]);
    unpark(stage);
}

/// A first that finds no room takes none: the message that was under way before it still fits.
fn refused_first(stage: &mut Stage, limits: &Limits) {
    stage.rng.note(Tag::RefusedFirst);
    let (identifier, content) = news(stage, limits.most);
    park(stage, limits.total - content.len());
    let halves = messages::fragments(0, &content, &[content.len() / 2]);
    stage.signal(identifier, &halves[0]);
    let body = stage.rng.bytes(content.len() - content.len() / 2 + 1);
    let first = messages::fragment(Place::First, 0, &body);
    stage.signal(PARKED + 3, &first);
    stage.signal(identifier, &halves[1]);
    unpark(stage);
}

/// Something comes between a first and its last.
fn interrupted(stage: &mut Stage) {
    let (identifier, content) = news(stage, NEWS_LEAST);
    let end = stage.rng.within(1..=content.len() - 1);
    let halves = messages::fragments(0, &content, &[end]);
    let whole = messages::whole(0, &signalling::other_message(&mut stage.rng));
    let first = messages::fragment(Place::First, 0, &content[..9]);
    let (tag, between) = stage.rng.pick::<(Tag, &[u8])>(&[
        (Tag::WholeBetween, &whole),
        (Tag::OneByteBetween, &[0x3f]),
        (Tag::EmptyBetween, &[]),
        (Tag::FirstBetween, &first),
        (Tag::BareMiddle, &[0x80]),
    ]);
    stage.rng.note(tag);
    for payload in [&halves[0], between, &halves[1]] {
        stage.signal(identifier, payload);
    }
}

/// A whole message where nothing was begun: in a last, or in a middle with an empty last behind it.
fn orphan(stage: &mut Stage) {
    let (identifier, content) = news(stage, NEWS_LEAST);
    let (tag, place) = stage.rng.pick(&[
        (Tag::LastAlone, Place::Last),
        (Tag::MiddleAlone, Place::Middle),
    ]);
    stage.rng.note(tag);
    for payload in [
        messages::fragment(place, 0, &content),
        messages::fragment(Place::Last, 0, &[]),
    ] {
        stage.signal(identifier, &payload);
    }
}

/// Holds as many fragments as there are places, then one more, then gives one place back.
pub(crate) fn many(stage: &mut Stage) {
    stage.announce_plainly();
    let (held, content) = news(stage, NEWS_LEAST);
    let old = messages::fragments(0, &content, &[20]);
    let turn = stage.rng.pick(&[0, HELD_MOST - 1, HELD_MOST - 1]);
    for nth in 0..HELD_MOST {
        if nth == turn {
            stage.signal(held, &old[0]);
            continue;
        }
        let body = stage.rng.some_bytes(0..=3);
        let first = messages::fragment(Place::First, 0, &body);
        stage.signal(PARKED + nth, &first);
    }
    stage.rng.note(Tag::FragmentsFull);
    let (other, content) = news(stage, NEWS_LEAST);
    if other != held {
        stage.rng.note(Tag::FragmentsPast);
    }
    send(stage, other, &content);
    stage.probe();
    if stage.rng.chance(50) {
        stage.rng.note(Tag::FragmentRenewed);
        let (_, content) = news(stage, NEWS_LEAST);
        send(stage, held, &content);
    } else {
        stage.signal(held, &old[1]);
    }
    stage.probe();
    let (next, content) = news(stage, NEWS_LEAST);
    send(stage, next, &content);
    let steps = stage.rng.within(5..=60);
    stage.play(steps);
    stage.probe();
}
