//! The two tables that are learned from, PLT and MPT, and the locations in them. A table comes with its
//! 4-byte head and is read within its own length.

use crate::fields::Fields;

/// Where a package or an asset is found: at a packet identifier of this very stream, or anywhere else.
#[derive(Debug, Clone, Copy, PartialEq, Eq)]
pub enum PackageLocation {
    Here { packet_id: u16 },
    Elsewhere,
}

/// A package of a PLT.
#[derive(Debug, Clone, PartialEq, Eq)]
pub struct Package {
    pub package_id: Vec<u8>,
    pub location: PackageLocation,
}

/// A PLT.
#[derive(Debug, Clone, PartialEq, Eq)]
pub struct PackageList {
    pub packages: Vec<Package>,
}

/// An asset of an MPT.
#[derive(Debug, Clone, PartialEq, Eq)]
pub struct Asset {
    pub kind: String,
    pub locations: Vec<PackageLocation>,
}

impl Asset {
    /// The identifier at its first location of type 0, if it has one.
    pub fn packet_id(&self) -> Option<u16> {
        self.locations.iter().find_map(|location| match location {
            PackageLocation::Here { packet_id } => Some(*packet_id),
            PackageLocation::Elsewhere => None,
        })
    }
}

/// An MPT.
#[derive(Debug, Clone, PartialEq, Eq)]
pub struct PackageTable {
    pub assets: Vec<Asset>,
}

/// A location and its size, its type byte counted. Type 5 has a length byte behind the type, type 0 its
/// identifier; types above 5 do not read.
pub fn general_location(bytes: &[u8]) -> Option<(PackageLocation, usize)> {
    let size = match *bytes.first()? {
        0 => 3,
        1 => 13,
        2 | 4 => 37,
        3 => 7,
        5 => 2 + usize::from(*bytes.get(1)?),
        _ => return None,
    };
    let location = match *bytes.get(..size)? {
        [0, high, low] => PackageLocation::Here {
            packet_id: u16::from_be_bytes([high, low]),
        },
        _ => PackageLocation::Elsewhere,
    };
    Some((location, size))
}

/// A PLT: a count, and for each package its name behind a length byte, and its location.
pub fn package_list(table: &[u8]) -> Option<PackageList> {
    let packages = body(table)?.entries(package)?;
    Some(PackageList { packages })
}

/// An MPT: a mode byte, a name behind a length byte, descriptors behind a 16-bit length, and the counted
/// entries.
pub fn package_table(table: &[u8]) -> Option<PackageTable> {
    let mut fields = body(table)?;
    fields.byte()?;
    fields.short_run()?;
    fields.long_run()?;
    let assets = fields.entries(asset)?;
    Some(PackageTable { assets })
}

/// What follows a table's head, within the table's own length.
fn body(table: &[u8]) -> Option<Fields<'_>> {
    let mut fields = Fields(table);
    fields.bytes(2)?;
    fields.long_run().map(Fields)
}

fn package(fields: &mut Fields) -> Option<Package> {
    Some(Package {
        package_id: fields.short_run()?.to_vec(),
        location: location(fields)?,
    })
}

fn location(fields: &mut Fields) -> Option<PackageLocation> {
    let (location, size) = general_location(fields.0)?;
    fields.bytes(size)?;
    Some(location)
}

/// An entry in the layout of 000's `asset_size`: five bytes, identifier, kind, clock, locations, descriptors.
fn asset(fields: &mut Fields) -> Option<Asset> {
    fields.bytes(5)?;
    fields.short_run()?;
    let kind = String::from_utf8_lossy(fields.bytes(4)?).into_owned();
    clock(fields)?;
    let locations = fields.entries(location)?;
    fields.long_run()?;
    Some(Asset { kind, locations })
}

/// A flag byte whose lowest bit says that two more bytes follow, the lowest bit of the second of which says
/// that four more follow.
fn clock(fields: &mut Fields) -> Option<()> {
    if fields.byte()? & 1 != 0 && fields.bytes(2)?[1] & 1 != 0 {
        fields.bytes(4)?;
    }
    Some(())
}
