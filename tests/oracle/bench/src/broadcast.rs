//! Signalling for the rows on learning and on the rules: a PLT, and an MPT for each of its services. Each has two
//! editions, which differ in one identifier.

use oracle::builders::{asset, here, mpt, pa, plt, service_at};

/// A message and the identifier that carries it.
pub type Message = (u16, Vec<u8>);

const KINDS: [&str; 4] = ["hvc1", "mp4a", "stpp", "aapp"];

/// The number of a service.
pub fn service(nth: u16) -> u16 {
    0x0400 + nth
}

/// The identifier of a service's MPT.
fn map_identifier(nth: u16) -> u16 {
    0x1000 + nth
}

/// The PLT, its services in no order: seven has no divisor in common with the numbers of services here.
pub fn plt_of(services: u16, edition: u16) -> Message {
    let package = |nth: u16| {
        let nth = 7 * nth % services;
        let moved = if nth + 1 == services { edition } else { 0 };
        service_at(service(nth), map_identifier(nth + moved))
    };
    let packages: Vec<_> = (0..services).map(package).collect();
    (0, pa(&[plt(&packages)]))
}

/// The MPT of a service.
pub fn mpt_of(service: u16, assets: u16, edition: u16) -> Message {
    let entry = |nth: u16| {
        let moved = if nth + 1 == assets { edition } else { 0 };
        let place = here(0x2000 + 0x100 * service + nth + moved);
        let kind = KINDS[usize::from(nth) % KINDS.len()];
        asset(&[nth as u8], kind, &[0], &[place], &[0x80, 0x10, 1, 0])
    };
    let entries: Vec<_> = (0..assets).map(entry).collect();
    (map_identifier(service), pa(&[mpt(&entries)]))
}
