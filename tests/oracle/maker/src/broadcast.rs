//! The model of a broadcast: services with their assets and where the PLT says that they are,
//! and how all this changes while the broadcast runs.

use std::collections::BTreeSet;

use crate::rng::Rng;
use crate::tables::{Asset, Clock, ENTRIES_MOST, Location, MPT_FIRST, MPT_LAST, Package};
use crate::tags::Tag;

pub(crate) const EIT: u16 = 0x8000;
/// Identifiers that no table names.
pub(crate) const UNNAMED: [u16; 2] = [0x3ffe, 0x3fff];

pub(crate) struct Service {
    /// A service number where it has two bytes.
    pub(crate) name: Vec<u8>,
    /// Where its MPT is sent.
    pub(crate) mpt: u16,
    /// Where the PLT says that its MPT is sent.
    pub(crate) location: Location,
    pub(crate) table: u8,
    pub(crate) assets: Vec<Asset>,
}

pub(crate) struct Broadcast {
    pub(crate) services: Vec<Service>,
    /// PLT entries beside those of the services.
    pub(crate) repeats: Vec<Package>,
    /// The identifiers that assets are drawn from: few, so that services share some.
    pool: Vec<u16>,
}

impl Broadcast {
    pub(crate) fn new(rng: &mut Rng, services: usize) -> Self {
        let mut pool: Vec<u16> = (0..rng.within(4..=24))
            .map(|i| 0xf100 + 16 * i as u16)
            .collect();
        pool.extend((0..rng.below(4)).map(|_| rng.number()));
        if rng.chance(25) {
            rng.note(Tag::AssetAtEit);
            pool.push(EIT);
        }
        if rng.chance(10) {
            rng.note(Tag::AssetAtZero);
            pool.push(0);
        }
        Self::drawn_from(rng, pool, services)
    }

    /// Few identifiers for all assets, so that those of different kinds share some.
    pub(crate) fn crowded(rng: &mut Rng, services: usize) -> Self {
        let pool = (0..rng.within(2..=4)).map(|i| 0xf100 + i as u16).collect();
        Self::drawn_from(rng, pool, services)
    }

    fn drawn_from(rng: &mut Rng, pool: Vec<u16>, services: usize) -> Self {
        let mut broadcast = Self {
            services: Vec::new(),
            repeats: Vec::new(),
            pool,
        };
        for _ in 0..services {
            broadcast.add_service(rng);
        }
        if broadcast.shares() {
            rng.note(Tag::SharedIdentifier);
        }
        broadcast
    }

    /// Whether two services name one identifier.
    fn shares(&self) -> bool {
        let mut seen = BTreeSet::new();
        self.services.iter().any(|service| {
            let named: BTreeSet<u16> = service
                .assets
                .iter()
                .filter_map(Asset::identifier)
                .collect();
            named.into_iter().any(|identifier| !seen.insert(identifier))
        })
    }

    /// Notes whether an other asset has its identifier in common with a caption, or with a carousel, of its service.
    pub(crate) fn note_kinds(&self, rng: &mut Rng) {
        for service in &self.services {
            let at = |wanted: fn(&[u8; 4]) -> bool| -> BTreeSet<u16> {
                let assets = service.assets.iter().filter(|asset| wanted(&asset.kind));
                assets.filter_map(Asset::identifier).collect()
            };
            let others = at(|kind| kind != b"stpp" && kind != b"aapp");
            if !others.is_disjoint(&at(|kind| kind == b"stpp")) {
                rng.note(Tag::CaptionAndOther);
            }
            if !others.is_disjoint(&at(|kind| kind == b"aapp")) {
                rng.note(Tag::CarouselAndOther);
            }
        }
    }

    fn add_service(&mut self, rng: &mut Rng) {
        let nth = self.services.len() as u16;
        let mpt = match rng.below(100) {
            0..80 => 0xf000 + nth,
            80..90 => self.identifier(rng),
            90..94 => {
                rng.note(Tag::PackageAtZero);
                0
            }
            94..97 => {
                rng.note(Tag::PackageAtEit);
                EIT
            }
            _ => rng.number(),
        };
        let assets = (0..rng.within(0..=7)).map(|_| self.asset(rng)).collect();
        let (name, location) = (name(rng, 0x0400 + nth), location(rng, mpt));
        self.services.push(Service {
            name,
            mpt,
            location,
            table: mpt_number(rng),
            assets,
        });
    }

    pub(crate) fn identifier(&self, rng: &mut Rng) -> u16 {
        rng.pick(&self.pool)
    }

    pub(crate) fn asset(&self, rng: &mut Rng) -> Asset {
        Asset {
            name: rng.some_bytes(0..=6),
            kind: kind(rng),
            clock: clock(rng),
            locations: self.locations(rng),
            descriptors: if rng.chance(25) {
                rng.some_bytes(1..=24)
            } else {
                Vec::new()
            },
            overlong: 0,
        }
    }

    fn locations(&self, rng: &mut Rng) -> Vec<Location> {
        let here = |rng: &mut Rng| Location::Here(self.identifier(rng));
        match rng.below(100) {
            0..76 => vec![here(rng)],
            76..84 => {
                rng.note(Tag::SeveralLocations);
                vec![here(rng), here(rng), elsewhere(rng)]
            }
            84..92 => {
                rng.note(Tag::SeveralLocations);
                vec![elsewhere(rng), here(rng)]
            }
            92..96 => {
                rng.note(Tag::NoTypeZero);
                vec![elsewhere(rng), elsewhere(rng)]
            }
            _ => {
                rng.note(Tag::NoTypeZero);
                Vec::new()
            }
        }
    }

    /// The PLT's entries.
    pub(crate) fn packages(&self) -> Vec<Package> {
        self.services
            .iter()
            .map(|service| Package {
                name: service.name.clone(),
                location: service.location.clone(),
            })
            .chain(self.repeats.iter().cloned())
            .collect()
    }

    /// The numbers of the services that have one.
    pub(crate) fn numbers(&self) -> Vec<u16> {
        self.packages()
            .iter()
            .filter_map(|package| package.name.as_slice().try_into().ok())
            .map(u16::from_be_bytes)
            .collect()
    }

    /// Gives the first service as many assets as an MPT can count, or one fewer.
    pub(crate) fn fill_assets(&mut self, rng: &mut Rng) {
        let count = ENTRIES_MOST - rng.below(2);
        let assets = (0..count).map(|_| self.asset(rng)).collect();
        if let Some(service) = self.services.first_mut() {
            rng.note(Tag::ManyAssets);
            service.assets = assets;
        }
    }

    /// Names packages until a PLT can count no more, each of another service.
    pub(crate) fn fill_packages(&mut self, rng: &mut Rng) {
        rng.note(Tag::ManyPackages);
        for nth in 0..ENTRIES_MOST - self.packages().len() {
            let nth = nth as u16;
            let identifier = rng.pick(&[0xf000, 0xf001, 0x3000 + nth]);
            self.repeats.push(Package {
                name: (0x0500 + nth).to_be_bytes().to_vec(),
                location: Location::Here(identifier),
            });
        }
    }

    /// Every identifier that some table names or that a rule treats apart, and some that nobody names.
    pub(crate) fn identifiers(&self) -> Vec<u16> {
        let mut all = vec![0, EIT];
        all.extend(UNNAMED);
        for service in &self.services {
            all.push(service.mpt);
            all.extend(service.assets.iter().filter_map(Asset::identifier));
        }
        all.sort_unstable();
        all.dedup();
        all
    }

    /// One change, which the stream tells of when its tables are next sent.
    pub(crate) fn evolve(&mut self, rng: &mut Rng) {
        match rng.below(7) {
            0 => self.add_service(rng),
            1 if self.services.len() > 1 => {
                self.services.remove(rng.below(self.services.len()));
            }
            2 => self.repeat(rng),
            _ => {
                let asset = self.asset(rng);
                let moved = self.identifier(rng);
                if let Some(service) = nth_service(rng, &mut self.services) {
                    service.evolve(rng, asset, moved);
                }
            }
        }
    }

    /// Names some service once more, at another place.
    fn repeat(&mut self, rng: &mut Rng) {
        rng.note(Tag::RepeatedService);
        let name = match nth_service(rng, &mut self.services) {
            Some(service) => service.name.clone(),
            None => vec![4, 0],
        };
        let location = match rng.below(3) {
            0 => elsewhere(rng),
            1 => Location::Here(self.identifier(rng)),
            _ => Location::Here(0xf000 + rng.below(8) as u16),
        };
        self.repeats.push(Package { name, location });
    }
}

impl Service {
    fn evolve(&mut self, rng: &mut Rng, asset: Asset, moved: u16) {
        match rng.below(6) {
            0 if !self.assets.is_empty() => {
                self.assets.remove(rng.below(self.assets.len()));
            }
            1 => {
                rng.note(Tag::ReadyLost);
                self.mpt = moved;
                self.location = Location::Here(moved);
            }
            2 => self.table = mpt_number(rng),
            3 => self.location = location(rng, self.mpt),
            _ => self.assets.push(asset),
        }
    }
}

fn nth_service<'a>(rng: &mut Rng, services: &'a mut [Service]) -> Option<&'a mut Service> {
    let nth = rng.below(services.len().max(1));
    services.get_mut(nth)
}

fn mpt_number(rng: &mut Rng) -> u8 {
    let between = MPT_FIRST + rng.below(15) as u8;
    rng.pick(&[MPT_LAST, MPT_LAST, MPT_LAST, MPT_FIRST, between])
}

fn name(rng: &mut Rng, number: u16) -> Vec<u8> {
    let usual = number.to_be_bytes().to_vec();
    match rng.below(100) {
        0..88 => usual,
        88..92 => rng.bytes(2),
        _ => {
            rng.note(Tag::NameNotTwoBytes);
            let longer = [usual.clone(), vec![0]].concat();
            match rng.below(3) {
                0 => Vec::new(),
                1 => usual[..1].to_vec(),
                _ => longer,
            }
        }
    }
}

fn location(rng: &mut Rng, mpt: u16) -> Location {
    if rng.chance(93) {
        Location::Here(mpt)
    } else {
        rng.note(Tag::PackageElsewhere);
        elsewhere(rng)
    }
}

fn elsewhere(rng: &mut Rng) -> Location {
    let kind = rng.within(1..=5) as u8;
    rng.note(
        [
            Tag::Location1,
            Tag::Location2,
            Tag::Location3,
            Tag::Location4,
            Tag::Location5,
        ][usize::from(kind) - 1],
    );
    Location::of_type(rng, kind)
}

fn kind(rng: &mut Rng) -> [u8; 4] {
    let near = rng.pick(&[
        *b"STPP",
        *b"stpq",
        *b"aap\0",
        *b"ppaa",
        *b"\xffstp",
        *b"asgd",
    ]);
    let (tag, kind) = rng.weighted(&[
        (24, (Tag::Caption, *b"stpp")),
        (18, (Tag::Carousel, *b"aapp")),
        (26, (Tag::OtherKind, *b"hvc1")),
        (22, (Tag::OtherKind, *b"mp4a")),
        (10, (Tag::OddKind, near)),
    ]);
    rng.note(tag);
    kind
}

fn clock(rng: &mut Rng) -> Clock {
    let (tag, clock) = rng.weighted(&[
        (70, (Tag::ClockNone, Clock::None)),
        (15, (Tag::ClockPlain, Clock::Plain)),
        (15, (Tag::ClockScaled, Clock::Scaled)),
    ]);
    rng.note(tag);
    clock
}
