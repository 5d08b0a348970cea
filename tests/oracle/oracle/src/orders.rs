//! `cases --orders`: messages of a few identifiers in fragments, in every order in which these can come, with a fragment
//! room that is just long enough for what is held, and with one that is a byte too short. Each message lists assets of its
//! own, and at the end a packet comes on each of their identifiers, so that an answer tells which messages were joined, and
//! from which bytes.

use std::collections::BTreeSet;

use face::{Limits, Modes};
use maker::holding::needs;
use maker::{Calls, Operation};

use crate::builders::*;

/// A case, and what it is found by.
#[derive(Debug, Clone, PartialEq, Eq)]
pub struct Ordered {
    pub family: &'static str,
    /// Whose turn it is, by number.
    pub order: Vec<usize>,
    pub room: Room,
    pub case: Calls,
}

/// What T and M are, by what the fragments need where nothing is given up. M is T but for the last.
#[derive(Debug, Clone, Copy, PartialEq, Eq)]
pub enum Room {
    /// T is the most that is held.
    Met,
    /// T is a byte less.
    Passed,
    /// T is what some step needs that needs less.
    LessMet,
    /// T is a byte less.
    LessPassed,
    /// M is a byte less than the longest message.
    MostPassed,
}

/// All cases, family by family.
pub fn orders() -> impl Iterator<Item = Ordered> {
    families().into_iter().flat_map(Family::cases)
}

// Messages

/// The service that is wanted, and the identifier of its MPT. Those of the messages follow them.
pub(crate) const SERVICE: u16 = 0x0400;
const MPT: u16 = 0x0100;
/// W: long enough for all packets of a case as one chunk. Each output has this length, too.
const WORK: usize = 4_096;

/// The MPT of the service of this number, which lists as many assets as the number says, from one on. Each edition lists
/// others.
#[derive(Debug, Clone, Copy, PartialEq, Eq, PartialOrd, Ord)]
pub(crate) struct Message {
    nth: u16,
    edition: u16,
}

#[derive(Debug, Clone, Copy)]
enum Place {
    Whole,
    First,
    Middle,
    Last,
}

/// A payload with a message, or with a part of one.
#[derive(Debug, Clone)]
pub(crate) struct Sent {
    pub(crate) message: Message,
    payload: Vec<u8>,
}

impl Message {
    pub(crate) fn new(nth: u16) -> Self {
        Self { nth, edition: 0 }
    }

    fn identifier(self) -> u16 {
        MPT + self.nth
    }

    pub(crate) fn assets(self) -> impl Iterator<Item = u16> {
        let first = 0x1011 * self.nth + 0x0100 * self.edition;
        (0..self.nth).map(move |asset| first + 0x0410 * asset)
    }

    /// What is joined, with the flags that say how it is to be read: a message by itself, behind a length of 16 or 32 bits,
    /// or with bytes behind it that are not read, but must fit. A first has the flags.
    fn content(self) -> (u8, Vec<u8>) {
        let entries: Vec<_> = self.assets().map(video).collect();
        let message = pa(&[mpt(&entries)]);
        let length = message.len() as u32;
        match self.nth {
            2 => (1, [&(length as u16).to_be_bytes(), &message[..]].concat()),
            3 => (3, [&length.to_be_bytes(), &message[..]].concat()),
            4 => (0, [&message[..], &[0xff; 25]].concat()),
            _ => (0, message),
        }
    }

    fn sent(self, place: Place, flags: u8, body: &[u8]) -> Sent {
        let head = [(place as u8) << 6 | flags & 0x3f, 0];
        Sent {
            message: self,
            payload: [&head, body].concat(),
        }
    }

    fn whole(self) -> Sent {
        let (flags, content) = self.content();
        self.sent(Place::Whole, flags, &content)
    }

    /// In fragments that end at these offsets, the last where the message does. The flags of all but the first say nothing.
    pub(crate) fn parts(self, ends: &[usize]) -> Vec<Sent> {
        let (flags, content) = self.content();
        let starts = [&[0], ends].concat();
        let part = |(nth, start): (usize, usize)| match ends.get(nth) {
            None => self.sent(Place::Last, !flags, &content[start..]),
            Some(&end) if nth > 0 => self.sent(Place::Middle, !flags, &content[start..end]),
            Some(&end) => self.sent(Place::First, flags, &content[start..end]),
        };
        starts.into_iter().enumerate().map(part).collect()
    }
}

impl Sent {
    pub(crate) fn packet(&self) -> Vec<u8> {
        signalling(self.message.identifier(), &self.payload)
    }
}

// Orders

/// What each service sends, in this order.
pub(crate) type Scripts = Vec<Vec<Sent>>;

/// Scripts whose services take turns in every order.
struct Family {
    name: &'static str,
    scripts: Scripts,
}

fn families() -> Vec<Family> {
    let of = |nth, ends: &[usize]| Message::new(nth).parts(ends);
    let family = |name, scripts: &[Vec<Sent>]| Family {
        name,
        scripts: scripts.to_vec(),
    };
    let beside = |name, script| family(name, &[of(1, &[18]), script, of(3, &[15, 54])]);
    vec![
        family(
            "three messages",
            &[of(1, &[10, 24]), of(2, &[26, 38]), of(3, &[15, 54])],
        ),
        family(
            "three messages with empty fragments",
            &[of(1, &[0, 20]), of(2, &[30, 30]), of(3, &[37, 81])],
        ),
        family(
            "four messages",
            &[of(1, &[18]), of(2, &[42]), of(3, &[29]), of(4, &[95])],
        ),
        beside("a first again, longer", again(&[12], &[33, 45])),
        beside("a first again, shorter", again(&[40, 49], &[22])),
        beside("a whole behind a first", with_whole(1)),
        beside("a whole behind a middle", with_whole(2)),
    ]
}

/// A message that is not brought to its end, and another edition.
pub(crate) fn again(old: &[usize], new: &[usize]) -> Vec<Sent> {
    let mut script = Message { nth: 2, edition: 1 }.parts(old);
    script.pop();
    script.extend(Message::new(2).parts(new));
    script
}

/// A message in three fragments, with another edition whole behind so many of them: the others belong to nothing.
pub(crate) fn with_whole(behind: usize) -> Vec<Sent> {
    let mut script = Message::new(2).parts(&[26, 38]);
    script.insert(behind, Message { nth: 2, edition: 2 }.whole());
    script
}

impl Family {
    fn cases(self) -> impl Iterator<Item = Ordered> {
        let lengths: Vec<_> = self.scripts.iter().map(Vec::len).collect();
        let orders = interleavings(&lengths).into_iter().enumerate();
        orders.flat_map(move |(nth, order)| self.of_order(nth, &order))
    }

    /// An order in all its rooms. In each second case the packets are one chunk; in the others each is one.
    fn of_order(&self, nth: usize, order: &[usize]) -> Vec<Ordered> {
        let sent = in_order(&self.scripts, order);
        let case = |(at, (room, limits)): (usize, (Room, Limits))| Ordered {
            family: self.name,
            order: order.to_vec(),
            room,
            case: self.case(&sent, limits, at.is_multiple_of(2)),
        };
        (nth..).zip(rooms(nth, &sent)).map(case).collect()
    }

    /// All packets at once, or one by one, and after each the question how many identifiers are dropped.
    fn case(&self, sent: &[&Sent], limits: Limits, at_once: bool) -> Calls {
        let packets = sent.iter().map(|sent| sent.packet());
        let mut operations = vec![push(known(self.scripts.len()).concat())];
        if at_once {
            operations.push(push(packets.flatten().collect()));
        } else {
            operations.extend(packets.flat_map(|packet| [push(packet), Operation::Dropped]));
        }
        let probes = messages(&self.scripts).into_iter();
        let probes = probes.flat_map(Message::assets).flat_map(media);
        operations.extend([push(probes.collect()), Operation::Dropped]);
        Calls {
            limits,
            options: only(SERVICE),
            modes: Modes::OFF,
            operations,
        }
    }
}

/// What is sent if the services of these scripts, counted from 0, have their turns in this order.
pub(crate) fn in_order<'a>(scripts: &'a Scripts, order: &[usize]) -> Vec<&'a Sent> {
    let mut scripts: Vec<_> = scripts.iter().map(|script| script.iter()).collect();
    let next = |&turn: &usize| scripts[turn].next().expect("as many turns as it has");
    order.iter().map(next).collect()
}

/// The messages of which scripts send something.
pub(crate) fn messages(scripts: &Scripts) -> BTreeSet<Message> {
    scripts.iter().flatten().map(|sent| sent.message).collect()
}

/// What makes the filter ready: a PLT with the wanted service and so many others, and the MPT of the wanted one.
pub(crate) fn known(others: usize) -> [Vec<u8>; 2] {
    let services = 0..=others as u16;
    let packages: Vec<_> = services
        .map(|nth| service_at(SERVICE + nth, MPT + nth))
        .collect();
    [tables(0, &[plt(&packages)]), tables(MPT, &[mpt(&[])])]
}

fn push(chunk: Vec<u8>) -> Operation {
    Operation::Push { room: WORK, chunk }
}

/// All orders in which so many things of each of some sorts can come.
fn interleavings(lengths: &[usize]) -> Vec<Vec<usize>> {
    if lengths.iter().all(|&length| length == 0) {
        return vec![Vec::new()];
    }
    let sorts = (0..lengths.len()).filter(|&sort| lengths[sort] > 0);
    sorts
        .flat_map(|sort| {
            let mut left = lengths.to_vec();
            left[sort] -= 1;
            let behind = interleavings(&left).into_iter();
            behind.map(move |order| [&[sort], &order[..]].concat())
        })
        .collect()
}

/// The rooms in which an order comes. Which of the steps that need less it is that T is chosen by goes by the order's number.
fn rooms(nth: usize, sent: &[&Sent]) -> Vec<(Room, Limits)> {
    let needs = needs(
        sent.iter()
            .map(|sent| (sent.message.identifier(), &sent.payload[..])),
    );
    let totals: BTreeSet<_> = needs.iter().map(|need| need.total).collect();
    let mut totals: Vec<_> = totals.into_iter().filter(|&total| total > 1).collect();
    let total = totals.pop().expect("something is held");
    let less = totals[nth % totals.len()];
    let longest = needs.iter().map(|need| need.most).max();
    let longest = longest.expect("something is joined");
    let of = |total, most| Limits {
        work: WORK,
        total,
        most,
        maps: 32_768,
    };
    vec![
        (Room::Met, of(total, total)),
        (Room::Passed, of(total - 1, total - 1)),
        (Room::LessMet, of(less, less)),
        (Room::LessPassed, of(less - 1, less - 1)),
        (Room::MostPassed, of(total, longest - 1)),
    ]
}
