//! 01's twelve examples, as 01 writes them; 1 to 10 are held to the named cases too.

use face::{Counts, Kind, Options};
use oracle::builders::{NO_CAPTIONS, NO_CAROUSELS, entry, hex, only};
use oracle::named::{Named, named};

use crate::subject::{changed, each};

/// 01's M, with another head.
fn m(head: &str) -> Vec<u8> {
    let entries = [entry(0x11, "hvc1", 0xf100), entry(0x22, "stpp", 0xf130)];
    [hex(head), entries.concat()].concat()
}

const M: &str = "20 05 00 2B 00 02 04 00 00 00 02";
/// The PLT of example 7.
const PLT: &str = "80 01 00 0E 02 02 04 00 00 F0 00 02 04 01 00 F0 01 00";

/// Asserts that the example's named table is this one, and that it and both filters answer so.
fn example(number: u8, options: Options, table: &[u8], after: Option<&[u8]>) {
    let name = format!("example {number}, table");
    let cases = named().into_iter().filter(|case| case.name == name);
    let [Named { input, answer, .. }] = &cases.collect::<Vec<_>>()[..] else {
        panic!("{name} is not there, or twice");
    };
    assert_eq!((input.kind, input.options), (Kind::Table, options));
    assert_eq!((&input.bytes[..], input.room), (table, table.len()));
    let stated = answer.clone().expect("its answer stands beside it");
    assert_eq!(changed(stated).as_deref(), after);
    each(|filter| assert_eq!(filter.table(options, table).as_deref(), after));
}

#[test]
fn e_is_18_bytes() {
    let bytes = hex("00 00000000 01 11 68766331 00 01 00 F100 0000");
    assert_eq!(entry(0x11, "hvc1", 0xf100), bytes);
    assert_eq!(bytes.len(), 18);
}

#[test]
fn example_01_captions_go_and_02_its_result_stays() {
    let head = hex("20 05 00 19 00 02 04 00 00 00 01");
    let result = [head, entry(0x11, "hvc1", 0xf100)].concat();
    example(1, NO_CAPTIONS, &m(M), Some(&result));
    example(2, NO_CAPTIONS, &result, None);
}

#[test]
fn example_03_no_carousel_to_go() {
    example(3, NO_CAROUSELS, &m(M), None);
}

#[test]
fn example_04_count_3() {
    let table = m("20 05 00 2B 00 02 04 00 00 00 03");
    example(4, NO_CAPTIONS, &table, None);
}

#[test]
fn example_05_location_type_06() {
    let mut table = m(M);
    let location = 11 + 13;
    table[location] = 6;
    example(5, NO_CAPTIONS, &table, None);
}

#[test]
fn example_06_both_kinds_stpp() {
    let mut table = m(M);
    let kind = 11 + 7;
    table[kind..kind + 4].copy_from_slice(b"stpp");
    let result = hex("20 05 00 07 00 02 04 00 00 00 00");
    example(6, NO_CAPTIONS, &table, Some(&result));
}

#[test]
fn example_07_one_service_and_08_its_result_again() {
    let result = hex("80 01 00 08 01 02 04 01 00 F0 01 00");
    example(7, only(0x0401), &hex(PLT), Some(&result));
    example(8, only(0x0401), &result, Some(&result));
}

#[test]
fn example_09_another_service() {
    example(9, only(0x0402), &hex(PLT), None);
}

#[test]
fn example_10_the_last_of_two_names() {
    let table = hex("80 01 00 0E 02 02 04 00 00 F0 00 02 04 00 00 F0 01 00");
    let result = hex("80 01 00 08 01 02 04 00 00 F0 01 00");
    example(10, only(0x0400), &table, Some(&result));
}

#[test]
fn example_11_in_one_chunk() {
    each(|filter| {
        let call = filter.started(NO_CAPTIONS).send(&hex("7F FF 00 01 AA 00"));
        let counts = Counts {
            skipped: 3,
            ..Counts::default()
        };
        assert_eq!((call.counts, call.held, call.out), (counts, 3, vec![]));
    });
}

#[test]
fn example_12_cut_after_aa() {
    each(|filter| {
        let mut run = filter.started(NO_CAPTIONS);
        let packet = hex("7F FF 00 01 AA");
        let call = run.send(&packet);
        assert_eq!((call.counts.accepted, call.held, call.out), (1, 0, packet));
        let call = run.send(&[0]);
        assert_eq!((call.counts, call.held), (Counts::default(), 1));
    });
}
