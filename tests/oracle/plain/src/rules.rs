//! 01 "Keep, drop, ready": which packets are written and how many identifiers are dropped, worked out from
//! the options and the learned lists each time it is asked.

use crate::learning::{Learned, Package};
use crate::payload::Mmtp;
use face::{Options, Part};

/// The identifier that EIT off drops.
const EIT: u16 = 0x8000;

pub struct Rules<'a> {
    pub options: &'a Options,
    pub learned: &'a Learned,
}

/// Whether assets of this kind are wanted.
pub fn wants(options: &Options, part: Part) -> bool {
    match part {
        Part::Caption => options.caption,
        Part::Carousel => options.carousel,
        Part::Other => options.other,
    }
}

impl Rules<'_> {
    /// Whether an MMTP packet that was read is written.
    pub fn writes(&self, mmtp: &Mmtp) -> bool {
        !self.drops(mmtp.identifier) && (mmtp.is_signalling() || self.ready())
    }

    /// How many packet identifiers are dropped: each is asked once, of those that some rule could drop.
    pub fn dropped(&self) -> u32 {
        let mut asked = vec![EIT];
        asked.extend(self.named());
        asked.extend(&self.learned.data);
        asked.sort_unstable();
        asked.dedup();
        let answers = asked.into_iter().map(|identifier| self.drops(identifier));
        answers.map(u32::from).sum()
    }

    /// EIT stands apart, since it drops "even when kept".
    fn drops(&self, identifier: u16) -> bool {
        let is_it = |other| other == identifier;
        let eit = !self.options.eit && identifier == EIT;
        let data = !self.options.carousel && self.learned.data.contains(&identifier);
        let dropped = data || self.named().any(is_it);
        eit || (identifier != 0 && dropped && !self.kept().any(is_it))
    }

    /// Whether the latest PLT's needs are met by the lists that are held.
    fn ready(&self) -> bool {
        let present = self.options.service.is_none() || self.our_packages().next().is_some();
        let held = |package: &Package| self.learned.map(package.identifier).is_some();
        self.learned.plt_seen && present && self.our_packages().all(held)
    }

    /// All that packages name: what of it is not kept is dropped.
    fn named(&self) -> impl Iterator<Item = u16> {
        let packages = self.learned.packages.iter();
        packages.flat_map(|package| self.with_assets(package, |_| true))
    }

    /// What a package of ours keeps: the identifier of its MPT and its wanted assets.
    fn kept(&self) -> impl Iterator<Item = u16> {
        let wanted = |part| wants(self.options, part);
        self.our_packages()
            .flat_map(move |package| self.with_assets(package, wanted))
    }

    /// Each package is ours if no service is named.
    fn our_packages(&self) -> impl Iterator<Item = &Package> {
        let ours = |service| self.options.service.is_none_or(|named| named == service);
        let packages = self.learned.packages.iter();
        packages.filter(move |package| ours(package.service))
    }

    /// A package's MPT identifier, and the identifiers of its listed assets of the kinds that are asked for.
    fn with_assets(
        &self,
        package: &Package,
        asked: impl Fn(Part) -> bool,
    ) -> impl Iterator<Item = u16> {
        let list = self.learned.map(package.identifier).into_iter();
        let assets = list
            .flat_map(|map| &map.assets)
            .filter(move |asset| asked(asset.part));
        std::iter::once(package.identifier).chain(assets.map(|asset| asset.identifier))
    }
}
