//! 01's examples 1 to 10: as tables, as 01 writes them, and each inside a payload and inside a packet.

use face::{Narrowed, Options};

use super::{Named, counted, listed, packet, payload, table};
use crate::builders::{hex, pa, signalling, whole};

pub(super) fn examples() -> Vec<Named> {
    let inputs = maker::examples();
    let numbered = (1_u8..).zip(inputs.into_iter().zip(answers()));
    numbered
        .flat_map(|(number, (input, answer))| {
            let name = format!("example {number}");
            three_ways(&name, input.options, &input.bytes, answer)
        })
        .collect()
}

/// What 01 says of each.
fn answers() -> [Narrowed; 10] {
    let one_left =
        hex("20 05 00 19 00 02 04 00 00 00 01 00 00000000 01 11 68766331 00 01 00 F100 0000");
    let none_left = hex("20 05 00 07 00 02 04 00 00 00 00");
    let service_0401 = hex("80 01 00 08 01 02 04 01 00 F0 01 00");
    let last_of_two = hex("80 01 00 08 01 02 04 00 00 F0 01 00");
    [
        counted(one_left, [0, 0, 1], [1, 0, 0]),
        Narrowed::Unchanged,
        Narrowed::Unchanged,
        Narrowed::Unchanged,
        Narrowed::Unchanged,
        counted(none_left, [0; 3], [2, 0, 0]),
        listed(service_0401.clone()),
        listed(service_0401),
        Narrowed::Unchanged,
        listed(last_of_two),
    ]
}

/// The table alone, then in a PA message of a payload on identifier 0, then that in a packet.
pub(super) fn three_ways(
    name: &str,
    options: Options,
    bytes: &[u8],
    answer: Narrowed,
) -> [Named; 3] {
    let name = |form: &str| format!("{name}, {form}");
    let in_payload = |table: &[u8]| whole(&pa(&[table.to_vec()]));
    let in_packet = |table: &[u8]| signalling(0, &in_payload(table));
    let (inside, around) = (within(&answer, in_payload), within(&answer, in_packet));
    [
        table(name("table"), options, bytes.to_vec(), answer),
        payload(name("payload"), options, 0, in_payload(bytes), inside),
        packet(name("packet"), options, in_packet(bytes), around),
    ]
}

/// The answer for a table that is put into something.
fn within(answer: &Narrowed, put: impl Fn(&[u8]) -> Vec<u8>) -> Narrowed {
    match answer {
        Narrowed::Changed { out, stayed, went } => counted(put(out), *stayed, *went),
        other => other.clone(),
    }
}
