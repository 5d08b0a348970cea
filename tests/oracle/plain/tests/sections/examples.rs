//! 01's twelve examples.

use crate::build::*;

const TWO_PACKAGES: &str = "80 01 00 0E 02 02 04 00 00 F0 00 02 04 01 00 F0 01 00";

#[test]
fn the_builders_build_01s_m() {
    assert_eq!(
        mpt(&[entry(0x11, "hvc1", 0xF100), entry(0x22, "stpp", 0xF130)]),
        m()
    );
}

#[test]
fn examples_1_and_2_a_caption_goes_once() {
    let first = narrow_table(NO_CAPTIONS, &m()).expect("changed");
    let expected = "20 05 00 19 00 02 04 00 00 00 01 00 00000000 01 11 68766331 00 01 00 F100 0000";
    assert_eq!(first, hex(expected));
    assert_eq!(narrow_table(NO_CAPTIONS, &first), None);
}

#[test]
fn example_3_no_carousel_to_remove() {
    assert_eq!(narrow_table(NO_CAROUSELS, &m()), None);
}

#[test]
fn example_4_an_entry_is_missing() {
    let mut table = m();
    table[10] = 3;
    assert_eq!(narrow_table(NO_CAPTIONS, &table), None);
}

#[test]
fn example_5_a_location_of_no_known_type() {
    let mut table = m();
    assert_eq!(table[24..27], hex("00 F100"), "the first entry's location");
    table[24] = 6;
    assert_eq!(narrow_table(NO_CAPTIONS, &table), None);
}

#[test]
fn example_6_no_entry_is_left() {
    let table = mpt(&[entry(0x11, "stpp", 0xF100), entry(0x22, "stpp", 0xF130)]);
    assert_eq!(
        narrow_table(NO_CAPTIONS, &table),
        Some(hex("20 05 00 07 00 02 04 00 00 00 00"))
    );
}

#[test]
fn examples_7_and_8_one_package_stays_and_stays_again() {
    let one = hex("80 01 00 08 01 02 04 01 00 F0 01 00");
    assert_eq!(
        narrow_table(only(0x0401), &hex(TWO_PACKAGES)),
        Some(one.clone())
    );
    assert_eq!(narrow_table(only(0x0401), &one), Some(one));
}

#[test]
fn example_9_no_entry_of_the_service() {
    assert_eq!(narrow_table(only(0x0402), &hex(TWO_PACKAGES)), None);
}

#[test]
fn example_10_the_last_of_two_stays() {
    let mut twice = hex(TWO_PACKAGES);
    twice[13] = 0;
    let expected = hex("80 01 00 08 01 02 04 00 00 F0 01 00");
    assert_eq!(narrow_table(only(0x0400), &twice), Some(expected));
}

#[test]
fn example_11_the_byte_after_a_packet_is_no_mark() {
    let call = feed(&mut filter(NO_CAPTIONS), &[hex("7F FF 00 01 AA 00")]);
    assert_eq!(
        (call.counts.skipped, call.held, call.counts.accepted),
        (3, 3, 0)
    );
}

#[test]
fn example_12_a_cut_before_the_byte_after() {
    let mut filter = filter(NO_CAPTIONS);
    let call = feed(&mut filter, &[hex("7F FF 00 01 AA")]);
    assert_eq!((call.counts.accepted, call.out.len(), call.held), (1, 5, 0));
    let call = feed(&mut filter, &[hex("00")]);
    assert_eq!(
        (call.counts.accepted, call.counts.skipped, call.held),
        (0, 0, 1)
    );
}
