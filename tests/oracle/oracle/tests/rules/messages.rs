//! The readings that concern messages: found in a payload, alone or aggregated, and joined from fragments.
//! All is seen by message 0x8003, whose identifier is dropped with carousels off.

use face::Limits;

use crate::subject::{LIMITS, each};
use oracle::builders::*;

/// Asserts whether an 0x8003 was found in the payloads, each on its identifier.
fn data_found(found: bool, limits: Limits, payloads: &[(u16, Vec<u8>)]) {
    each(|filter| {
        let mut run = filter.started_with(limits, NO_CAROUSELS);
        for (identifier, payload) in payloads {
            run.send(&signalling(*identifier, payload));
        }
        assert_eq!(run.dropped(), u32::from(found));
    });
}

fn found_in(payload: &[u8]) {
    data_found(true, LIMITS, &[(5, payload.to_vec())]);
}

fn not_found_in(payload: &[u8]) {
    data_found(false, LIMITS, &[(5, payload.to_vec())]);
}

#[test]
fn r05_a_message_that_does_not_fit_is_not_found() {
    let mut message = data();
    found_in(&whole(&message));
    message[6] = 1;
    not_found_in(&whole(&message));
    not_found_in(&whole(&data()[..6]));
}

#[test]
fn r05_a_length_past_the_end_stops_the_aggregate() {
    let past = [0xff, 0xff];
    found_in(&[&aggregate(&[data()])[..], &past].concat());
    let behind = aggregate(&[data()])[2..].to_vec();
    not_found_in(&[&aggregate(&[])[..], &past, &behind].concat());
}

#[test]
fn r05_a_message_that_does_not_read_is_stepped_over() {
    let broken = long_message(0, &[0; 9])[..10].to_vec();
    found_in(&aggregate(&[vec![], broken, vec![0x80], data()]));
}

#[test]
fn r05_four_byte_lengths_are_told_by_bit_1() {
    let payload = [&[3, 0, 0, 0, 0, 7][..], &data()].concat();
    found_in(&payload);
    let payload = [&[3, 0, 0, 7][..], &data()].concat();
    not_found_in(&payload);
}

#[test]
fn r05_an_unaggregated_payload_holds_one_message() {
    not_found_in(&whole(&[pa(&[]), data()].concat()));
}

#[test]
fn r16_32_bit_lengths_do_not_wrap() {
    let mut message = data();
    message[3..7].fill(0xff);
    not_found_in(&whole(&message));
    let payload = [&[3, 0, 0xff, 0xff, 0xff, 0xff][..], &data()].concat();
    not_found_in(&payload);
}

/// Asserts that the payloads are joined to an 0x8003 with these T and M.
fn joined(room: (usize, usize), payloads: &[(u16, Vec<u8>)]) {
    data_found(true, limits(room), payloads);
}

fn not_joined(room: (usize, usize), payloads: &[(u16, Vec<u8>)]) {
    data_found(false, limits(room), payloads);
}

fn limits((total, most): (usize, usize)) -> Limits {
    Limits {
        total,
        most,
        ..LIMITS
    }
}

#[test]
fn r12_fragments_are_joined_in_order_of_arrival() {
    let parts = |order: [usize; 4]| {
        let bytes = data();
        let cuts = [
            (1, &bytes[..1]),
            (2, &bytes[1..2]),
            (2, &bytes[2..3]),
            (3, &bytes[3..]),
        ];
        order.map(|nth| (5, fragment(cuts[nth].0, cuts[nth].1)))
    };
    joined((7, 7), &parts([0, 1, 2, 3]));
    not_joined((7, 7), &parts([0, 2, 1, 3]));
    not_joined((7, 7), &parts([1, 0, 2, 3]));
    let [first, .., last] = parts([0, 1, 2, 3]);
    not_joined((7, 7), &[first, (6, fragment(2, &data()[1..3])), last]);
}

#[test]
fn r12_m_is_not_tested_on_a_whole() {
    joined((1, 1), &[(5, whole(&data()))]);
}

/// That a first above M is held shows in the room that it takes from another.
#[test]
fn r12_a_first_above_m_is_held_until_its_next_fragment() {
    let large = (5, fragment(1, &[0; 20]));
    let [first, last] = [(6, fragment(1, &data())), (6, fragment(3, &[]))];
    joined((27, 10), &[large.clone(), first.clone(), last.clone()]);
    not_joined((26, 10), &[large.clone(), first.clone(), last.clone()]);
    for place in [2, 3] {
        let discards = (5, fragment(place, &[]));
        let payloads = [large.clone(), discards, first.clone(), last.clone()];
        joined((26, 10), &payloads);
    }
    not_joined((26, 6), &[first, last]);
}

/// A first that finds no room stays out, though room is given back before its last comes.
#[test]
fn r12_t_is_tested_on_a_first() {
    let payloads = [
        (5, fragment(1, &[0; 4])),
        (6, fragment(1, &data())),
        (5, vec![0]),
        (6, fragment(3, &[])),
    ];
    joined((11, 7), &payloads);
    not_joined((10, 7), &payloads);
}

#[test]
fn r12_m_and_t_are_tested_on_a_last() {
    let (start, rest) = (data()[..1].to_vec(), data()[1..].to_vec());
    let payloads = [
        (5, fragment(1, &[0; 5])),
        (6, fragment(1, &start)),
        (6, fragment(3, &rest)),
    ];
    joined((12, 7), &payloads);
    not_joined((11, 7), &payloads);
    not_joined((12, 6), &payloads);
}

#[test]
fn r12_at_most_256_are_held_and_the_own_old_one_goes_first() {
    let mut payloads: Vec<_> = (0..256).map(|at| (at, fragment(1, &[]))).collect();
    let last = fragment(3, &data());
    joined((7, 7), &[&payloads[..], &[(255, last.clone())]].concat());
    payloads.push((255, fragment(1, &data())));
    let empty = fragment(3, &[]);
    joined((7, 7), &[&payloads[..], &[(255, empty)]].concat());
    payloads.push((256, fragment(1, &[])));
    not_joined((14, 14), &[&payloads[..], &[(256, last)]].concat());
}

#[test]
fn r12_an_old_fragment_stays_gone_if_the_new_one_is_not_held() {
    let old = (5, fragment(1, &data()));
    let last = (5, fragment(3, &[]));
    joined((10, 10), &[old.clone(), last.clone()]);
    not_joined((10, 10), &[old, (5, fragment(1, &[0; 11])), last]);
}

#[test]
fn r12_an_empty_payload_drops_nothing_a_whole_of_one_byte_does() {
    let (first, last) = ((5, fragment(1, &data())), (5, fragment(3, &[])));
    joined((10, 10), &[first.clone(), (5, vec![]), last.clone()]);
    not_joined((10, 10), &[first, (5, vec![0]), last]);
}

#[test]
fn r12_a_fragment_of_one_byte_has_no_body() {
    joined((7, 7), &[(5, vec![0x40]), (5, fragment(3, &data()))]);
    joined((7, 7), &[(5, fragment(1, &data())), (5, vec![0xc0])]);
}

#[test]
fn r12_a_joined_message_takes_its_flags_from_the_first() {
    let body = aggregate(&[data()])[2..].to_vec();
    let part =
        |place: u8, flags: u8, body: &[u8]| (5, [&[place << 6 | flags, 9][..], body].concat());
    joined((99, 99), &[part(1, 1, &body), part(3, 0, &[])]);
    not_joined((99, 99), &[part(1, 0, &body), part(3, 1, &[])]);
}
