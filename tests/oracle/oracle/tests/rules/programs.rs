//! 01's two programs, and reading 34 of how they read and write.

use std::io::Read;

use face::Engine;
use oracle::engine::Oracle;
use original::Original;
use plain::Plain;

use oracle::builders::*;

/// What `sums` and `filter` write, with any filter behind them that knows the flags.
fn written(input: &[u8]) -> [Vec<u8>; 2] {
    let oracle = written_by::<Oracle>(input);
    assert_eq!(oracle, written_by::<Plain>(input));
    if !matches!(input, [0x10..0x20, _, _, ..]) {
        assert_eq!(oracle, written_by::<Original>(input));
    }
    oracle
}

fn written_by<E: Engine>(input: &[u8]) -> [Vec<u8>; 2] {
    let mut written = [vec![], vec![]];
    oracle::programs::sums::<E>(input, &mut written[0]).expect("memory takes it");
    oracle::programs::filter::<E>(ByteByByte(input), &mut written[1]).expect("memory takes it");
    written
}

/// The shortest reads that there are.
struct ByteByByte<'a>(&'a [u8]);

impl Read for ByteByByte<'_> {
    fn read(&mut self, buffer: &mut [u8]) -> std::io::Result<usize> {
        let most = buffer.len().min(1);
        self.0.read(&mut buffer[..most])
    }
}

fn sums(input: &[u8]) -> String {
    let [sums, _] = written(input);
    String::from_utf8(sums).expect("a line of text")
}

#[test]
fn the_example_of_sums() {
    let input = hex("00 00 00 7F FF 00 01 AA 00");
    let line = "packets 0 written 0 rewritten 0 skipped 3 held 3 lost 0\n";
    assert_eq!(sums(&input), line);
}

#[test]
fn refusal_8_is_one_line_and_nothing_after_it() {
    for input in [
        &[][..],
        &[0],
        &[0, 0],
        &[32, 0, 0, 1],
        &[0x80, 0, 0],
        &[0x30, 0, 0],
        &[0x11, 0],
    ] {
        assert_eq!(written(input), [b"refused 8\n", b"refused 8\n"]);
    }
    assert_eq!(written(&[15, 0, 0])[1], b"");
    assert_eq!(written(&[31, 0, 0])[1], b"");
}

/// Bit 4 without bit 0, whatever the other bits say.
#[test]
fn refusal_9_is_one_line_and_nothing_after_it() {
    for flags in [0x10, 0x12, 0x14, 0x16, 0x18, 0x1e] {
        for stream in [&[][..], &short_packet()] {
            let input = [&[flags, 4, 1][..], stream].concat();
            assert_eq!(written(&input), [b"refused 9\n", b"refused 9\n"]);
        }
    }
}

fn short_packet() -> Vec<u8> {
    hex("7F FF 00 01 AA")
}

#[test]
fn bit_4_takes_other_assets_out() {
    let packet = |entries: &[Vec<u8>]| tables(0xf000, &[mpt(entries)]);
    let all = [video(3), caption(1), carousel(2)];
    let filtered = |flags| written(&[&[flags, 0, 0][..], &packet(&all)].concat())[1].clone();
    assert_eq!(filtered(0x17), packet(&all[1..]));
    assert_eq!(filtered(0x11), packet(&all[1..2]));
    assert_eq!(filtered(0x07), packet(&all), "copy-all");
    assert_eq!(filtered(0x05), packet(&all[..2]));
    let packets = "packets 1 written 1 rewritten 1 skipped 0 held 0 lost 0\n";
    assert_eq!(sums(&[&[0x17, 0, 0][..], &packet(&all)].concat()), packets);
}

#[test]
fn r17_the_programs_have_a_p_of_32768() {
    let held = "packets 0 written 0 rewritten 0 skipped 0 held 4 lost 0\n";
    assert_eq!(sums(&hex("00 00 00 7F FF 7F FC")), held);
    let skipped = "packets 0 written 0 rewritten 0 skipped 1 held 3 lost 0\n";
    assert_eq!(sums(&hex("00 00 00 7F FF 7F FD")), skipped);
}

/// A packet that ends with a chunk is accepted whatever follows it; elsewhere its next byte must be 0x7F.
#[test]
fn r34_a_chunk_is_filled_from_short_reads() {
    let mut stream = tlv(0xff, &[0; 32_764 - 5]);
    stream.extend(hex("7F FF 00 01 AA"));
    assert_eq!(stream.len(), 32_768);
    stream.push(0);
    let input = [&[0, 0, 0][..], &stream].concat();
    let [sums, filtered] = written(&input);
    assert_eq!(
        sums,
        b"packets 2 written 2 rewritten 0 skipped 0 held 1 lost 0\n"
    );
    assert_eq!(filtered, stream[..32_768]);
}

#[test]
fn r34_service_bytes_are_not_read_with_bit_3_off() {
    let packet = tables(0, &[plt(&[service_at(0x0401, 1), service_at(0x0402, 2)])]);
    let input = |flags| [&[flags, 4, 1][..], &packet].concat();
    let narrowed = tables(0, &[plt(&[service_at(0x0401, 1)])]);
    assert_eq!(written(&input(6))[1], packet);
    assert_eq!(written(&input(15))[1], narrowed);
}

#[test]
fn r34_a_flag_that_is_on_is_wanted() {
    let packet = |entries: &[Vec<u8>]| tables(0xf000, &[mpt(entries)]);
    let input = |flags| [&[flags, 0, 0][..], &packet(&[caption(1), carousel(2)])].concat();
    assert_eq!(written(&input(0b101))[1], packet(&[caption(1)]));
    assert_eq!(written(&input(0b110))[1], packet(&[carousel(2)]));
    let eit = |flags| [&[flags, 0, 0][..], &signalling(0x8000, &[])].concat();
    assert_eq!(written(&eit(0b100))[1], signalling(0x8000, &[]));
    assert_eq!(written(&eit(0b011))[1], b"");
}

#[test]
fn the_example_is_narrowed() {
    let example = oracle::programs::input(0);
    let [sums, filtered] = written(&example);
    assert!(0 < filtered.len() && filtered.len() < example.len() - 3);
    assert!(!String::from_utf8_lossy(&sums).contains("rewritten 0"));
}

/// Up to seed 23 other assets are wanted, and from there on not; each eighth of these is refused.
#[test]
fn further_seeds_are_without_other_assets() {
    let mut wishes = std::collections::BTreeSet::new();
    for seed in 0..48 {
        let input = oracle::programs::input(seed);
        assert_eq!(input[0] & 0x10 != 0, seed >= 24, "seed {seed}");
        let [_, filtered] = written(&input);
        let refused = seed >= 24 && seed % 8 == 0;
        assert_eq!(filtered == b"refused 9\n", refused, "seed {seed}");
        assert!(seed < 24 || refused || filtered.len() < input.len() - 3);
        wishes.insert(input[0]);
    }
    let captions: Vec<_> = wishes
        .iter()
        .filter(|flags| **flags & 0x11 == 0x11)
        .collect();
    assert_eq!(
        captions.len(),
        8,
        "carousels, EIT and a service in all ways"
    );
    assert!(wishes.iter().any(|flags| *flags & 0x11 == 0x10));
}
