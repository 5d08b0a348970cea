//! Rows on a call of one byte, with no bytes held and with 60,000. In both, the filters have learned from tables and are ready;
//! then 256 bytes come one by one, each a call that completes no packet: they are the first 256 bytes of a maximum packet,
//! or those behind its first 60,000. So 0 to 255 bytes are held before such a call, or 60,000 to 60,255.
//!
//! Only these 256 calls count. A turn starts a filter, hands it all that comes before them as one chunk, and then the bytes;
//! the turn whose time is taken away does the same without the bytes.

use face::{Modes, Part};

use crate::measure::Row;
use crate::passage::Passage;
use crate::streams::{MAXIMUM, NEITHER, TOTAL};

/// How many bytes come one by one. More would hold more than about nothing in the first row.
const BYTES: usize = 256;

pub fn rows() -> Vec<Row> {
    vec![
        row("a call of one byte, 0 held", 0),
        row("a call of one byte, 60,000 held", 60_000),
    ]
}

/// A row whose calls begin with so many bytes held.
fn row(name: &str, held: usize) -> Row {
    let mut stream = maker::media(1, Part::Other, MAXIMUM, MAXIMUM + 2_000);
    let first = stream.len() - MAXIMUM + held;
    stream.truncate(first + BYTES);
    let passage = |stream: &[u8]| Passage {
        stream: stream.into(),
        options: NEITHER,
        modes: Modes::OFF,
        total: TOTAL,
        first,
        size: 1,
    };
    let (before, all) = (passage(&stream[..first]), passage(&stream));
    assert_eq!(before.compared(name), all.compared(name), "{name}");
    assert_eq!(all.calls() - before.calls(), BYTES, "{name}");
    Row {
        name: name.to_owned(),
        times: BYTES,
        original: all.original(),
        proved: all.proved(),
        aside: Some([before.original(), before.proved()]),
    }
}
