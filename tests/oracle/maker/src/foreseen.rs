//! Messages of which it is foreseen what narrowing leaves: what a packet around one comes to, its checksums above all, can
//! then be chosen beforehand. It knows of narrowing no more than which plain entries stay.

use face::Options;

use crate::broadcast::UNNAMED;
use crate::ip;
use crate::messages::{self, Pa};
use crate::mmtp::{self, SIGNALLING};
use crate::rng::Rng;
use crate::tables::{Asset, Location, Mpt, Package, Plt};

/// A packet of plain IP around one; `most` is how long its filling can be.
pub(crate) fn packet(rng: &mut Rng, options: &Options, most: usize) -> Vec<u8> {
    let (identifier, before, after) = match options.service {
        Some(service) if rng.chance(45) => plt(rng, service),
        _ => mpt(rng, options, most),
    };
    let header = mmtp::header(rng, identifier, SIGNALLING);
    let around = |message: &[u8]| [header.clone(), messages::whole(0, message)].concat();
    ip::foreseen(rng, &around(&before), &around(&after))
}

/// The identifier, the message as it is sent, and what is left of it.
type Foreseen = (u16, Vec<u8>, Vec<u8>);

/// A PLT that has the service, at times that alone: it is then rewritten to the same bytes.
fn plt(rng: &mut Rng, service: u16) -> Foreseen {
    let package = |service: u16, identifier| Package {
        name: service.to_be_bytes().to_vec(),
        location: Location::Here(identifier),
    };
    let ours = package(service, 0xf000 + rng.below(256) as u16);
    let mut all = vec![ours.clone()];
    for nth in 0..rng.pick(&[0, 0, 1, 2, 5]) {
        let other = package(service ^ (0x0100 + nth), 0xf001 + nth);
        all.insert(rng.below(all.len() + 1), other);
    }
    let written = |packages| Pa::of(vec![Plt::of(packages).write()]).write();
    (0, written(all), written(vec![ours]))
}

/// An MPT, with bytes behind its message that go where an entry does.
fn mpt(rng: &mut Rng, options: &Options, most: usize) -> Foreseen {
    let count = rng.pick(&[1, 2, 3, 5, 12]);
    let (all, left): (Vec<_>, Vec<_>) = (0..count).map(|_| asset(rng, options)).unzip();
    let left: Vec<_> = left.into_iter().flatten().collect();
    let filling = match rng.below(8) {
        0 => most,
        1..4 => rng.within(0..=most),
        _ => rng.within(0..=30.min(most)),
    };
    let descriptors = rng.bytes(filling);
    // So that the last byte of an odd number is not always zero.
    let trailing = rng.some_bytes(0..=2);
    let written = |assets: &[Asset], behind: &[u8]| {
        let mut mpt = Mpt::of(assets.to_vec());
        mpt.descriptors = descriptors.clone();
        mpt.trailing = trailing.clone();
        let mut pa = Pa::of(vec![mpt.write()]);
        pa.after = behind.to_vec();
        pa.write()
    };
    let behind = rng.some_bytes(0..=3);
    let kept = if left.len() < all.len() {
        &[][..]
    } else {
        &behind
    };
    let identifier = rng.pick(&[0, UNNAMED[0]]);
    (identifier, written(&all, &behind), written(&left, kept))
}

/// An entry, and whether it stays.
fn asset(rng: &mut Rng, options: &Options) -> (Asset, Option<Asset>) {
    let (kind, stays) = rng.pick(&[
        (b"stpp", options.caption),
        (b"aapp", options.carousel),
        (b"hvc1", options.other),
        (b"mp4a", options.other),
    ]);
    let asset = Asset::plain(kind, 0xf100 + rng.below(8) as u16);
    (asset.clone(), stays.then_some(asset))
}
