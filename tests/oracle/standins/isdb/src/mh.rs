//! The body of a PA message, taken apart into its tables.

use crate::fields::Fields;

/// The tables behind a PA body's count and its head entries of four bytes each, found by the tables' own
/// heads. Where count or entries are cut there are none; a cut table ends the walk. Each table comes with its
/// number and includes its head.
pub fn package_message_tables(body: &[u8]) -> Vec<(u8, &[u8])> {
    let mut rest = Fields(body);
    if rest.entries(|fields| fields.bytes(4)).is_none() {
        return Vec::new();
    }
    std::iter::from_fn(|| table(&mut rest)).collect()
}

/// The next table: number, version, 16-bit length and as many bytes.
fn table<'a>(rest: &mut Fields<'a>) -> Option<(u8, &'a [u8])> {
    let &[number, _, high, low] = rest.0.first_chunk::<4>()?;
    let table = rest.bytes(4 + usize::from(u16::from_be_bytes([high, low])))?;
    Some((number, table))
}
