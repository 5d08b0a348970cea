//! The proved narrowing behind the driver (`driver/lib.rt.in`). A slice goes over as its place and its length.

use face::{Modes, Options};

unsafe extern "C" {
    fn driver_each(
        work: u8,
        packets: *const u8,
        length: usize,
        size: usize,
        count: usize,
        flags: u8,
        service: u16,
        modes: u8,
        out: *mut u8,
        room: usize,
    ) -> usize;
}

/// What the driver does with a packet, by its number there.
#[derive(Clone, Copy)]
pub enum Work {
    /// Writes it as a recorder does, narrowed or as it is.
    Written,
    /// Narrows it by itself, its entries counted; nothing is written where it stays.
    Counted,
}

/// Does so with each packet of `size` bytes; answers how many bytes were written.
pub fn each(
    work: Work,
    packets: &[u8],
    size: usize,
    (options, modes): (Options, Modes),
    out: &mut [u8],
) -> usize {
    let (flags, service) = (options.flags(), options.service.unwrap_or(0));
    let (length, count) = (packets.len(), packets.len() / size);
    let (from, to, room) = (packets.as_ptr(), out.as_mut_ptr(), out.len());
    // SAFETY: both are whole slices that do not overlap, and the driver keeps neither.
    unsafe {
        driver_each(
            work as u8,
            from,
            length,
            size,
            count,
            flags,
            service,
            modes.bits(),
            to,
            room,
        )
    }
}
