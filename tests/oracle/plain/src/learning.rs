//! 01 "What is learned": the lists that the rules ask, and the fragments from which messages are joined.
//! All lists are in the order in which their members came.

use crate::tables::{self, AssetEntry, Mpt, Plt};
use face::{Limits, Part};

/// Places of the map room, one for each identifier.
const MOST_MAPS: usize = 64;
const MOST_FRAGMENTS: usize = 256;

#[derive(Default)]
pub struct Learned {
    pub plt_seen: bool,
    /// The packages of the latest PLT that give a service and an identifier; each service once.
    pub packages: Vec<Package>,
    maps: Vec<Map>,
    /// The data set.
    pub data: Vec<u16>,
    fragments: Vec<Fragment>,
}

pub struct Package {
    pub service: u16,
    /// The identifier that its MPT comes on.
    pub identifier: u16,
}

/// The list held for one packet identifier.
pub struct Map {
    identifier: u16,
    pub assets: Vec<Asset>,
}

pub struct Asset {
    pub identifier: u16,
    pub part: Part,
}

struct Fragment {
    identifier: u16,
    /// The first's byte 0: of its low six bits, which the joined message has, two are read.
    flags: u8,
    body: Vec<u8>,
}

impl Learned {
    /// Observes a payload of type 2 and answers how many maps were lost.
    pub fn observe(&mut self, identifier: u16, payload: &[u8], limits: &Limits) -> u64 {
        let Some(&flags) = payload.first() else {
            return 0;
        };
        // Asked once, before the payload is read (DECISIONS R1).
        if self.data.contains(&identifier) {
            return 0;
        }
        let body = payload.get(2..).unwrap_or_default();
        match flags >> 6 {
            0 => {
                self.take_fragment(identifier);
                self.learn(identifier, flags, body)
            }
            1 => {
                self.hold_first(identifier, flags, body, limits);
                0
            }
            2 => {
                self.join(identifier, body, limits);
                0
            }
            _ => {
                self.join(identifier, body, limits);
                let joined = self.take_fragment(identifier);
                joined.map_or(0, |whole| self.learn(identifier, whole.flags, &whole.body))
            }
        }
    }

    pub fn map(&self, identifier: u16) -> Option<&Map> {
        self.maps.iter().find(|map| map.identifier == identifier)
    }

    fn fragment(&self, identifier: u16) -> Option<usize> {
        let mut held = self.fragments.iter();
        held.position(|fragment| fragment.identifier == identifier)
    }

    fn take_fragment(&mut self, identifier: u16) -> Option<Fragment> {
        let at = self.fragment(identifier)?;
        Some(self.fragments.remove(at))
    }

    /// A first takes the place of what its identifier held, if there is room for it. M is not tested on a first.
    fn hold_first(&mut self, identifier: u16, flags: u8, body: &[u8], limits: &Limits) {
        self.take_fragment(identifier);
        if self.fragments.len() < MOST_FRAGMENTS && self.has_room(body.len(), limits) {
            let body = body.to_vec();
            self.fragments.push(Fragment {
                identifier,
                flags,
                body,
            });
        }
    }

    /// Joins a middle's or last's body to the held fragment, or discards the fragment where M or T is passed.
    fn join(&mut self, identifier: u16, body: &[u8], limits: &Limits) {
        let room = self.has_room(body.len(), limits);
        let Some(at) = self.fragment(identifier) else {
            return;
        };
        let joined = &mut self.fragments[at].body;
        if room && joined.len() + body.len() <= limits.most {
            joined.extend_from_slice(body);
        } else {
            self.fragments.remove(at);
        }
    }

    /// Only the sum of what is held and of what comes counts against T.
    fn has_room(&self, body: usize, limits: &Limits) -> bool {
        let held: usize = self.fragments.iter().map(|held| held.body.len()).sum();
        held + body <= limits.total
    }

    /// Learns from all messages of a payload or joined message and answers how many maps were lost.
    fn learn(&mut self, identifier: u16, flags: u8, body: &[u8]) -> u64 {
        let mut lost = 0;
        for message in tables::messages(flags, body) {
            match message.number {
                tables::PA => lost += self.learn_tables(identifier, message.body),
                tables::DATA_CAROUSEL => self.learn_data(identifier),
                _ => {}
            }
        }
        lost
    }

    fn learn_data(&mut self, identifier: u16) {
        if !self.data.contains(&identifier) {
            self.data.push(identifier);
        }
    }

    /// A cut table ends the walk and earlier ones count.
    fn learn_tables(&mut self, identifier: u16, body: &[u8]) -> u64 {
        let mut lost = 0;
        for table in tables::pa(body).map(|pa| pa.tables).unwrap_or_default() {
            if identifier == 0
                && let Some(plt) = tables::plt(&table)
            {
                self.learn_plt(&plt);
            }
            if let Some(mpt) = tables::mpt(&table)
                && !self.learn_mpt(identifier, &mpt)
            {
                lost += 1;
            }
        }
        lost
    }

    fn learn_plt(&mut self, plt: &Plt) {
        self.plt_seen = true;
        self.packages.clear();
        for entry in &plt.packages {
            if let (Some(service), Some(identifier)) = (entry.service, entry.location) {
                // A repeated service keeps the last.
                self.packages.retain(|package| package.service != service);
                self.packages.push(Package {
                    service,
                    identifier,
                });
            }
        }
    }

    /// Whether the list found a place: the one its identifier has, or a free one (DECISIONS R10).
    fn learn_mpt(&mut self, identifier: u16, mpt: &Mpt) -> bool {
        let assets = mpt.assets.iter().filter_map(listed).collect();
        let map = Map { identifier, assets };
        let mut held = self.maps.iter();
        match held.position(|held| held.identifier == identifier) {
            Some(place) => self.maps[place] = map,
            None if self.maps.len() < MOST_MAPS => self.maps.push(map),
            None => return false,
        }
        true
    }
}

/// An asset without a type 0 location isn't listed.
fn listed(entry: &AssetEntry) -> Option<Asset> {
    let part = entry.part;
    entry
        .identifier
        .map(|identifier| Asset { identifier, part })
}
