//! 01 "Finding packets": what stands at the front of the run of held bytes and chunk. The caller goes along
//! the run by it; nothing is remembered here.

use crate::reader::Reader;

const MARK: u8 = 0x7F;
/// Mark, type and length: what a packet has before its TLV payload.
pub const HEAD: usize = 4;

pub enum Found {
    /// No start: one byte is skipped.
    NoStart,
    /// Fewer than four bytes remain, or a start's end lies past the run: all from here is kept.
    Unfinished,
    /// An accepted packet of this length, header included.
    Packet(usize),
}

/// `run` is what remains of the run, `limit` is P.
pub fn find(run: &[u8], limit: usize) -> Found {
    if run.len() < HEAD {
        return Found::Unfinished;
    }
    match start(run, limit) {
        None => Found::NoStart,
        Some(length) if length > run.len() => Found::Unfinished,
        Some(length) => Found::Packet(length),
    }
}

/// The length of the packet that starts here, header included.
fn start(run: &[u8], limit: usize) -> Option<usize> {
    let mut reader = Reader::new(run);
    let marked = reader.u8()? == MARK;
    let typed = matches!(reader.u8()?, 0x01 | 0x02 | 0x03 | 0xFE | 0xFF);
    let length = HEAD + usize::from(reader.u16()?);
    let followed = run.get(length).is_none_or(|&byte| byte == MARK);
    (marked && typed && followed && length <= limit).then_some(length)
}
