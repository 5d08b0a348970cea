//! That a seed is all there is to a case, that the promised bounds hold, that each situation is reached,
//! and that the edges lie where the tags say.

use std::collections::{BTreeMap, BTreeSet};

use face::{Limits, Modes, Options, Part};

use crate::calls::OPERATIONS_MOST;
use crate::cuts::{CUT_MOST, CUTS_MOST, ROOM_MOST};
use crate::limits::{ORIGINAL, TOTAL_MOST};
use crate::mmtp::SIGNALLING;
use crate::sums;
use crate::tags::{FLOORS, Tag};
use crate::tlv::{self, SYNC};
use crate::{
    Case, Operation, air, calls, case, cases, cuts, dense, examples, fragmented, inputs, media,
    narrowing, nulls, plain_case, plain_ip_air, plain_ip_calls, plain_ip_inputs, plain_ip_plts,
    plain_ip_uncut, staggered, wished_inputs,
};

const SEEDS: u64 = 2_000;
const WORK_MOST: usize = 131_200;
const MAPS_MOST: usize = 33_000;
const STREAM_MOST: usize = 400_000;

fn count<T>(tagged: impl Fn(u64) -> (T, BTreeSet<Tag>)) -> BTreeMap<Tag, usize> {
    let mut counts = BTreeMap::new();
    for tag in (0..SEEDS).flat_map(|seed| tagged(seed).1) {
        *counts.entry(tag).or_default() += 1;
    }
    counts
}

/// `of` is the place of the floors: cases, inputs, calls or inputs with any wishes, calls or inputs of plain IP.
fn assert_floors(counts: &BTreeMap<Tag, usize>, of: usize) {
    let reached = |tag| counts.get(&tag).copied().unwrap_or(0);
    let mut short = Vec::new();
    for (tag, floors) in FLOORS.iter().filter(|(_, floors)| floors[of] > 0) {
        println!("{tag:?} {} of {}", reached(*tag), floors[of]);
        if reached(*tag) < floors[of] {
            short.push(tag);
        }
    }
    assert!(short.is_empty(), "reached too seldom: {short:?}");
}

#[test]
fn cases_reach_every_situation() {
    assert_floors(&count(cases::tagged_case), 0);
}

#[test]
fn inputs_reach_every_situation() {
    assert_floors(&count(narrowing::tagged_inputs), 1);
}

#[test]
fn calls_reach_every_situation() {
    assert_floors(&count(calls::tagged_calls), 2);
}

#[test]
fn wished_inputs_reach_every_situation() {
    assert_floors(&count(narrowing::tagged_wished_inputs), 3);
}

#[test]
fn calls_of_plain_ip_reach_every_situation() {
    assert_floors(&count(calls::tagged_plain_ip_calls), 4);
}

#[test]
fn inputs_of_plain_ip_reach_every_situation() {
    assert_floors(&count(narrowing::tagged_plain_ip_inputs), 5);
}

#[test]
fn a_seed_is_all_there_is() {
    for seed in 0..200 {
        assert_eq!(case(seed), case(seed));
        assert_eq!(plain_case(seed), plain_case(seed));
        assert_eq!(inputs(seed), inputs(seed));
        assert_eq!(calls(seed), calls(seed));
        assert_eq!(wished_inputs(seed), wished_inputs(seed));
        assert_eq!(plain_ip_calls(seed), plain_ip_calls(seed));
        assert_eq!(plain_ip_inputs(seed), plain_ip_inputs(seed));
        assert_ne!(case(seed).bytes, plain_case(seed).bytes);
    }
    assert_eq!(air(1, 20_000), air(1, 20_000));
    assert_eq!(dense(1, 20_000), dense(1, 20_000));
    let streams: BTreeSet<_> = (0..200).map(|seed| plain_case(seed).bytes).collect();
    assert_eq!(streams.len(), 200);
}

fn assert_shape(case: &Case) {
    assert_eq!(case.cuts.iter().sum::<usize>(), case.bytes.len());
    assert!(case.cuts.len() <= CUTS_MOST, "{} cuts", case.cuts.len());
    assert!(case.cuts.iter().all(|&cut| cut <= CUT_MOST));
    assert!(case.room <= ROOM_MOST);
    assert!(case.bytes.len() <= STREAM_MOST);
}

#[test]
fn cases_keep_their_bounds() {
    for seed in 0..SEEDS {
        let case = case(seed);
        assert_shape(&case);
        assert!(case.limits.work <= WORK_MOST);
        assert!(case.limits.total <= TOTAL_MOST);
        assert!(u32::try_from(case.limits.most).is_ok());
        assert!(case.limits.maps <= MAPS_MOST);
    }
}

#[test]
fn plain_cases_keep_their_bounds() {
    for seed in 0..SEEDS {
        let case = plain_case(seed);
        assert_shape(&case);
        assert_eq!(case.limits, ORIGINAL);
        assert!(case.cuts.iter().all(|&cut| cut <= ORIGINAL.packet()));
        assert!(case.room >= needed(&case));
    }
}

#[test]
fn inputs_keep_their_bounds() {
    for input in (0..SEEDS).flat_map(inputs) {
        assert!(input.bytes.len() <= narrowing::INPUT_MOST);
        assert!(input.room <= ROOM_MOST);
    }
}

#[test]
fn calls_keep_their_bounds() {
    for seed in 0..SEEDS {
        for calls in [calls(seed), plain_ip_calls(seed)] {
            assert!(calls.limits.work <= WORK_MOST && calls.limits.maps <= MAPS_MOST);
            assert!(calls.limits.total <= TOTAL_MOST);
            assert!(calls.operations.len() <= OPERATIONS_MOST, "seed {seed}");
            assert!(calls.operations.iter().all(fits), "seed {seed}");
        }
    }
    let inputs = |seed| [wished_inputs(seed), plain_ip_inputs(seed)].concat();
    for input in (0..SEEDS).flat_map(inputs) {
        assert!(input.bytes.len() <= narrowing::INPUT_MOST);
        assert!(input.room <= ROOM_MOST);
    }
}

fn fits(operation: &Operation) -> bool {
    match operation {
        Operation::Push { room, chunk } => *room <= ROOM_MOST && chunk.len() <= CUT_MOST,
        Operation::Dropped => true,
    }
}

/// Each flag byte: the four wishes in all ways, with a service named and without.
#[test]
fn every_combination_of_wishes_occurs_with_a_service_and_without() {
    let count = |all: &mut dyn Iterator<Item = Options>| {
        let mut counts = [0; 32];
        for options in all {
            counts[usize::from(options.flags())] += 1;
        }
        counts
    };
    let calls = count(&mut (0..SEEDS).map(|seed| calls(seed).options));
    let inputs = (0..SEEDS).flat_map(wished_inputs);
    let inputs = count(&mut inputs.map(|input| input.options));
    println!("{calls:?}\n{inputs:?}");
    assert!(calls.iter().all(|count| *count >= 12));
    assert!(inputs.iter().all(|count| *count >= 300));
}

#[test]
fn starts_of_calls_are_refused_as_their_tags_say() {
    for seed in 0..SEEDS {
        let (calls, tags) = calls::tagged_calls(seed);
        let Options { caption, other, .. } = calls.options;
        let (limits, neither) = (calls.limits, !caption && !other);
        let holds = |tag, fact: bool| assert!(!tags.contains(&tag) || fact, "{tag:?} {seed}");
        let maps = limits.maps != ORIGINAL.maps;
        holds(Tag::StartMaps, maps && !neither);
        holds(Tag::StartMapsWishes, maps && neither);
        holds(Tag::StartWishes, neither && !maps);
        holds(Tag::CaptionsOfAll, caption && calls.options.flags() == 0x11);
        holds(Tag::CaptionsOfOne, caption && calls.options.flags() == 0x19);
        holds(Tag::NoOperations, calls.operations.is_empty());
        let mut rooms = BTreeSet::new();
        for operation in &calls.operations {
            if let Operation::Push { room, .. } = operation {
                rooms.insert(room);
            }
        }
        holds(Tag::OneRoom, rooms.len() <= 1);
    }
}

#[test]
fn most_streams_are_neither_short_nor_long() {
    let usual = (0..SEEDS)
        .filter(|&seed| (2_000..60_000).contains(&case(seed).bytes.len()))
        .count();
    assert!(usual > 1_500, "{usual}");
}

fn needed(case: &Case) -> usize {
    cuts::needed(&case.limits, &case.options, &case.bytes, &case.cuts)
}

/// The packets of a clean stream; none where it is not clean.
fn packets(bytes: &[u8]) -> Vec<&[u8]> {
    let mut packets = Vec::new();
    let mut rest = bytes;
    while let [SYNC, _, high, low, ..] = *rest {
        let size = 4 + usize::from(u16::from_be_bytes([high, low]));
        let Some((packet, next)) = rest.split_at_checked(size) else {
            return Vec::new();
        };
        packets.push(packet);
        rest = next;
    }
    if rest.is_empty() { packets } else { Vec::new() }
}

#[test]
fn edges_are_where_their_tags_say() {
    for seed in 0..SEEDS {
        let (case, tags) = cases::tagged_case(seed);
        let packet = case.limits.packet();
        let chunk = case.limits.work - packet;
        let holds = |tag, fact: bool| assert!(!tags.contains(&tag) || fact, "{tag:?} {seed}");
        let sizes: BTreeSet<usize> = packets(&case.bytes).into_iter().map(<[u8]>::len).collect();
        holds(Tag::PacketMet, sizes.contains(&packet));
        holds(Tag::PacketPassed, sizes.contains(&(packet + 1)));
        holds(Tag::ChunkLongest, case.cuts.contains(&chunk));
        holds(Tag::ChunkPastByOne, case.cuts.contains(&(chunk + 1)));
        holds(Tag::ChunkEmpty, case.cuts.contains(&0));
        holds(Tag::RoomExact, case.room == needed(&case));
        holds(Tag::RoomOneShort, case.room + 1 == needed(&case));
        holds(Tag::CopyAll, case.options.copies_all());
        holds(Tag::ServiceThere, case.options.service.is_some());
    }
}

#[test]
fn the_output_needed_is_what_is_held_and_the_chunk() {
    let bytes = [SYNC, tlv::NULL, 0, 1, 0xaa, 0];
    let limits = Limits {
        work: 4_096,
        ..ORIGINAL
    };
    let needed =
        |flags, cuts: &[usize]| cuts::needed(&limits, &Options::from_flags(flags, 0), &bytes, cuts);
    assert_eq!(needed(6, &[6]), 6);
    assert_eq!(needed(6, &[5, 1]), 5);
    assert_eq!(needed(6, &[4, 2]), 6);
    assert_eq!(needed(7, &[4, 2]), 4);
}

#[test]
fn benchmark_streams_are_clean_and_as_long_as_asked() {
    for size in [4, 5, 300, 1_399, 20_000, 1_000_003] {
        for stream in [air(7, size), plain_ip_air(7, size), dense(7, size)] {
            assert_eq!(stream.len(), size);
            assert!(!packets(&stream).is_empty());
        }
    }
    assert!(air(7, 3).is_empty());
    for air in [air(7, 1_000_000), plain_ip_air(7, 1_000_000)] {
        let long = packets(&air)
            .into_iter()
            .filter(|packet| packet.len() == 1_400);
        assert!(long.count() > 600);
    }
    let dense = dense(7, 1_000_000);
    let tables = packets(&dense)
        .into_iter()
        .filter(|packet| packet.get(8) == Some(&SIGNALLING));
    assert!(tables.map(<[u8]>::len).sum::<usize>() > 900_000);
}

#[test]
fn benchmark_streams_are_of_packets_that_are_alike() {
    assert!(packets(&nulls(4, 1_000)).iter().all(|null| null.len() == 4));
    assert_eq!(packets(&nulls(188, 1_000)).len(), 5);
    let parts = [Part::Caption, Part::Carousel, Part::Other];
    for (part, size) in parts.into_iter().zip([1_400, 20, 65_539]) {
        let stream = media(7, part, size, 300_000);
        let all = packets(&stream);
        assert!((300_000 - size..=300_000).contains(&stream.len()));
        assert!(all[7..].iter().all(|packet| packet.len() == size));
        assert!(all[7..].iter().all(|packet| packet[8..11] == all[7][8..11]));
    }
}

/// Of each fragment of a stream for benchmarks, its identifier's number and which third it is.
fn thirds(stream: &[u8], body: usize) -> Vec<(usize, usize)> {
    let fragments = &packets(stream)[7..];
    assert!(fragments.iter().all(|packet| packet[21..].len() == body));
    let third = |packet: &&[u8]| (packet[10].into(), usize::from(packet[19] >> 6) - 1);
    fragments.iter().map(third).collect()
}

#[test]
fn fragments_take_turns() {
    let thirds = thirds(&fragmented(7, 16, 150, 20_000), 150);
    assert_eq!(thirds.len(), 7 * 16);
    for (nth, third) in thirds.into_iter().enumerate() {
        assert_eq!(third, (nth % 16, nth / 16 % 3));
    }
}

#[test]
fn staggered_fragments_alternate() {
    let thirds = thirds(&staggered(7, 16, 1_400, 200_000), 1_400);
    // Six identifiers begin, then five more, then all are under way.
    let (begun, under_way) = thirds.split_at(6 + 11);
    assert!(begun[..6].iter().all(|(nth, third)| nth % 3 + third == 0));
    assert_eq!(under_way.len() % 16, 0);
    for (step, thirds) in (2..).zip(under_way.chunks(16)) {
        for (nth, third) in thirds.iter().enumerate() {
            assert_eq!(*third, (nth, (step - nth % 3) % 3));
        }
    }
}

/// The table of an example input, in hexadecimal digits.
fn example(nth: usize) -> String {
    let bytes = &examples::inputs()[nth - 1].bytes;
    bytes.iter().map(|byte| format!("{byte:02x}")).collect()
}

#[test]
fn examples_are_the_written_ones() {
    let video = "0000000000011168766331000100f1000000";
    let captions = "0000000000012273747070000100f1300000";
    let head = "2005002b000204000000";
    assert_eq!(example(1), format!("{head}02{video}{captions}"));
    assert_eq!(example(2), format!("2005001900020400000001{video}"));
    assert_eq!(example(4), format!("{head}03{video}{captions}"));
    let strange = video.replace("000100f1", "000106f1");
    assert_eq!(example(5), format!("{head}02{strange}{captions}"));
    assert_eq!(example(7), "8001000e0202040000f00002040100f00100");
    assert_eq!(example(8), "800100080102040100f00100");
    assert_eq!(example(10), "8001000e0202040000f00002040000f00100");
    assert_eq!(inputs(50), examples::inputs());
}

/// The modes that a seed's cases have, and that those of plain IP are mostly in it.
#[test]
fn plain_ip_carries_most_packets_of_its_mode() {
    let (mut plain, mut all) = (0, 0);
    for seed in 0..200 {
        assert_eq!(calls(seed).modes, Modes::OFF);
        assert_eq!(plain_ip_calls(seed).modes, Modes::PLAIN_IP);
        for input in plain_ip_inputs(seed) {
            assert_eq!(input.modes, Modes::PLAIN_IP);
            let kind = input.bytes.get(1);
            all += 1;
            plain += usize::from(kind == Some(&tlv::IPV4) || kind == Some(&tlv::IPV6));
        }
    }
    assert!(4 * plain > 3 * all, "{plain} of {all}");
}

/// A usual packet of plain IPv4: its lengths agree and its checksums are right.
fn assert_usual(packet: &[u8]) {
    let (head, udp) = packet[tlv::HEADER..].split_at(20);
    let number = |bytes: &[u8], at: usize| u16::from_be_bytes([bytes[at], bytes[at + 1]]);
    assert_eq!(head[0], 0x45);
    assert_eq!(usize::from(number(head, 2)), packet.len() - tlv::HEADER);
    assert_eq!(usize::from(number(udp, 4)), udp.len());
    assert_eq!(number(head, 10), sums::ipv4_checksum(head));
    assert_eq!(number(udp, 6), sums::udp_checksum(&head[12..], udp));
}

#[test]
fn plain_ip_of_benchmarks_is_right() {
    let stream = plain_ip_air(7, 300_000);
    let (nulls, all): (Vec<_>, Vec<_>) = packets(&stream)
        .into_iter()
        .partition(|packet| packet[1] == tlv::NULL);
    assert!(nulls.len() == 1 && all.len() > 200);
    all.into_iter().for_each(assert_usual);
    for same in [plain_ip_uncut(7, 8, 64), plain_ip_plts(7, 64)] {
        assert!(same.len() == 64 && same.iter().all(|packet| packet.len() == same[0].len()));
        same.iter().for_each(|packet| assert_usual(packet));
    }
}
