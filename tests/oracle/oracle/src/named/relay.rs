//! Request 2, tables in plain IP packets: calls over small broadcasts of a relay that sends plain IP, with the mode on and
//! with the mode off.

use std::slice::from_ref;

use face::{Call, Counts, Limits, Modes, Options};

use super::calls::{NamedCalls, Step, asked, calls, lent, refused, sent};
use super::plain_ip::listing;
use super::streams::{LIMITS, P, Sent, bytes, holding, limits, packets, passes};
use super::wishes::NEITHER;
use crate::builders::*;
use crate::datagrams::Heads;

pub(super) fn relay() -> Vec<NamedCalls> {
    [
        broadcasts(),
        rewritten_alike(),
        cuts(),
        copy_all(),
        starts(),
    ]
    .concat()
}

fn on(mut case: NamedCalls) -> NamedCalls {
    case.case.modes = Modes::PLAIN_IP;
    case
}

fn narrowed(heads: &Heads, before: &[u8], after: &[u8]) -> Sent {
    (heads.around(before), Some(heads.around(after)))
}

fn gone(packet: Vec<u8>) -> Sent {
    (packet, None)
}

/// As it comes, with the mode off.
fn as_it_is((packet, out): Sent) -> Sent {
    let passed = out.map(|_| packet.clone());
    (packet, passed)
}

/// The MMTP packet of a PLT.
fn list(packages: &[Vec<u8>]) -> Vec<u8> {
    mmtp(2, 0, &whole(&pa(&[plt(packages)])))
}

/// Service 0401 of two without captions: tables that are narrowed, tables that pass, and what is learned from both.
fn program() -> Vec<Sent> {
    let (four, six) = (Heads::v4(), Heads::v6());
    let ours = service_at(0x0401, 0xf001);
    let both = [service_at(0x0402, 0xf002), ours.clone()];
    let fragment = four.clone().put(6, &[0x20, 0]);
    let other = mmtp(2, 0xf002, &whole(&pa(&[mpt(&[video(6)])])));
    let media = |at: u16| mmtp(0, at, b"media");
    let clock = four.clone().ports(123, 123).around(&media(11));
    vec![
        gone(four.around(&media(5))),
        narrowed(&four, &list(&both), &list(&[ours])),
        narrowed(
            &six,
            &listing(&[video(5), caption(11), carousel(12)]),
            &listing(&[video(5), carousel(12)]),
        ),
        gone(six.around(&other)),
        passes(&fragment.around(&listing(&[video(5), caption(11), caption(13)]))),
        passes(&four.around(&media(5))),
        gone(six.around(&media(11))),
        gone(four.around(&media(13))),
        passes(&four.around(&media(12))),
        passes(&clock),
    ]
}

/// What is learned and dropped does not depend on the mode.
fn broadcasts() -> Vec<NamedCalls> {
    let options = Options {
        caption: false,
        ..only(0x0401)
    };
    let sent_all = |all: Vec<Sent>| vec![asked(0), sent(&all), asked(4)];
    let off = program().into_iter().map(as_it_is).collect();
    let one_by_one = program().into_iter().map(|packet| sent(&[packet]));
    vec![
        on(calls("a relay's broadcast", options, sent_all(program()))),
        calls("a relay's broadcast, mode off", options, sent_all(off)),
        on(calls(
            "a relay's broadcast, packet by packet",
            options,
            one_by_one.collect(),
        )),
    ]
}

/// A PLT that is rewritten to the same tables counts, and its checksums are worked out.
fn rewritten_alike() -> Vec<NamedCalls> {
    let heads = Heads::v6();
    let list = list(&[service_at(0x0401, 0xf001)]);
    let right = heads.around(&list);
    let unsummed = heads.unsummed().around(&list);
    let call = |rewritten: u64, out: &[u8]| Call {
        counts: Counts {
            bytes: out.len() as u64,
            accepted: 1,
            written: 1,
            rewritten,
            ..Counts::default()
        },
        held: 0,
        out: out.to_vec(),
    };
    let step = |packet: &[u8], call: Call| lent(packet.len(), packet.to_vec(), Ok(call));
    let both = |rewritten: u64, second: &[u8]| {
        vec![
            step(&right, call(rewritten, &right)),
            step(&unsummed, call(rewritten, second)),
        ]
    };
    let options = only(0x0401);
    vec![
        on(calls(
            "a relay's PLT of one service",
            options,
            both(1, &right),
        )),
        calls(
            "a relay's PLT of one service, mode off",
            options,
            both(0, &unsummed),
        ),
    ]
}

/// The packet is found whole first, wherever it is cut; the output must be as long as what comes in.
fn cuts() -> Vec<NamedCalls> {
    let heads = Heads::v4().words(8);
    let whole = narrowed(
        &heads,
        &listing(&[caption(1), video(2)]),
        &listing(&[video(2)]),
    );
    let packet = whole.0.clone();
    let at = |cut: usize| {
        let (front, rest) = packet.split_at(cut);
        let first = lent(front.len(), front.to_vec(), Ok(holding(cut)));
        let short = lent(packet.len() - 1, rest.to_vec(), Err(6));
        let last = lent(packet.len(), rest.to_vec(), Ok(packets(from_ref(&whole))));
        let name = format!("a relay's table, cut at {cut}");
        on(calls(name, NO_CAPTIONS, vec![first, short, last]))
    };
    let longest = lent(P + 1, vec![0; P + 1], Err(5));
    let steps: Vec<Step> = vec![longest, sent(from_ref(&whole))];
    let mut cases = vec![on(calls(
        "a relay's table behind a refusal",
        NO_CAPTIONS,
        steps,
    ))];
    cases.extend([1, 4, 5, 10, 35, 43, packet.len() - 1].map(at));
    cases
}

/// Copy-all copies: the mode is none of the wishes.
fn copy_all() -> Vec<NamedCalls> {
    let heads = Heads::v6().unsummed();
    let chunk = bytes(&[passes(&heads.around(&listing(&[video(1), caption(2)])))]);
    let copied = Call {
        counts: Counts {
            bytes: chunk.len() as u64,
            ..Counts::default()
        },
        held: 0,
        out: chunk.clone(),
    };
    let steps = vec![lent(chunk.len(), chunk, Ok(copied)), asked(0)];
    vec![on(calls("a relay's table, copy-all", ALL, steps))]
}

/// No new refusals, and the same order of the old.
fn starts() -> Vec<NamedCalls> {
    let case = |name: &str, limits: Limits, options, number| {
        on(refused(
            &format!("a relay, {name}"),
            limits,
            options,
            number,
        ))
    };
    vec![
        case("neither captions nor other", LIMITS, NEITHER, 9),
        case(
            "a work room of 4,095",
            limits(4_095, 1, 1, 32_768),
            NEITHER,
            1,
        ),
        case("messages above T", limits(4_096, 8, 9, 32_768), ALL, 2),
        case("a map room of 32,767", limits(4_096, 1, 1, 32_767), ALL, 3),
        on(calls("a relay, nothing is asked", ALL, vec![])),
    ]
}
