//! The readers of 01 "What is learned": messages, the PA message, and its tables PLT and MPT with their
//! entries and locations. What is read keeps the bytes it was read from, so that narrowing can put them together.

use crate::reader::Reader;
use face::Part;

pub const PA: u16 = 0;
pub const DATA_CAROUSEL: u16 = 0x8003;

pub struct Message<'a> {
    pub number: u16,
    pub version: u8,
    pub body: &'a [u8],
}

/// The messages of a payload or joined message: `flags` is its byte 0, `body` the bytes from 2 on.
pub fn messages(flags: u8, body: &[u8]) -> Vec<Message<'_>> {
    if flags & 1 == 0 {
        return message(body).into_iter().collect();
    }
    let mut reader = Reader::new(body);
    let mut found = Vec::new();
    while let Some(bytes) = aggregated(&mut reader, flags) {
        // One that does not read inside its own length is stepped over (DECISIONS R5).
        found.extend(message(bytes));
    }
    found
}

/// The bytes of the next message of an aggregate; a length past the end stops the walk (DECISIONS R5).
fn aggregated<'a>(reader: &mut Reader<'a>, flags: u8) -> Option<&'a [u8]> {
    if flags & 2 == 0 {
        reader.sized_by_u16()
    } else {
        reader.sized_by_u32()
    }
}

/// The message at the front of `bytes`; one that does not fit is not found (DECISIONS R5).
pub fn message(bytes: &[u8]) -> Option<Message<'_>> {
    let mut reader = Reader::new(bytes);
    let number = reader.u16()?;
    let version = reader.u8()?;
    let body = match number {
        PA | DATA_CAROUSEL | 0x7000..=0x7FFF | 0xF000.. => reader.sized_by_u32()?,
        _ => reader.sized_by_u16()?,
    };
    Some(Message {
        number,
        version,
        body,
    })
}

pub struct Pa<'a> {
    /// The count and the head entries.
    pub head: &'a [u8],
    pub tables: Vec<Table<'a>>,
    /// The bytes behind the last table that was walked.
    pub rest: &'a [u8],
}

impl Pa<'_> {
    /// Four bytes are a table head, and this one's length did not fit; fewer are no cut table (DECISIONS R2).
    pub fn ends_in_cut_table(&self) -> bool {
        self.rest.len() >= 4
    }
}

/// A PA body: its head entries, four bytes each, and the tables, each found by its own head.
pub fn pa(body: &[u8]) -> Option<Pa<'_>> {
    let mut reader = Reader::new(body);
    let (head, _) = reader.span(|reader| {
        let count = reader.u8()?;
        reader.take(4 * usize::from(count))
    })?;
    let mut tables = Vec::new();
    let mut rest = reader.rest();
    while let Some(table) = table(rest) {
        rest = &rest[table.bytes.len()..];
        tables.push(table);
    }
    Some(Pa { head, tables, rest })
}

pub struct Table<'a> {
    pub number: u8,
    /// The table with its head.
    pub bytes: &'a [u8],
    body: &'a [u8],
}

/// The table at the front of `bytes`, as long as its own head says.
pub fn table(bytes: &[u8]) -> Option<Table<'_>> {
    let (bytes, (number, body)) = Reader::new(bytes).span(|reader| {
        let number = reader.u8()?;
        let _version = reader.u8()?;
        Some((number, reader.sized_by_u16()?))
    })?;
    Some(Table {
        number,
        bytes,
        body,
    })
}

pub struct Plt<'a> {
    pub packages: Vec<PackageEntry<'a>>,
    /// Bytes behind the last entry belong to the table (DECISIONS R24).
    pub rest: &'a [u8],
}

pub struct PackageEntry<'a> {
    pub bytes: &'a [u8],
    /// Given by a two-byte name only.
    pub service: Option<u16>,
    pub location: Location,
}

/// The PLT that `table` is, if all its packages read.
pub fn plt<'a>(table: &Table<'a>) -> Option<Plt<'a>> {
    if table.number != 0x80 {
        return None;
    }
    let mut reader = Reader::new(table.body);
    let count = reader.u8()?;
    let packages = (0..count)
        .map(|_| package(&mut reader))
        .collect::<Option<_>>()?;
    Some(Plt {
        packages,
        rest: reader.rest(),
    })
}

fn package<'a>(reader: &mut Reader<'a>) -> Option<PackageEntry<'a>> {
    let (bytes, (name, location)) =
        reader.span(|reader| Some((reader.sized_by_u8()?, location(reader)?)))?;
    let service = name.try_into().ok().map(u16::from_be_bytes);
    Some(PackageEntry {
        bytes,
        service,
        location,
    })
}

pub struct Mpt<'a> {
    /// The bytes before the entry count.
    pub head: &'a [u8],
    pub assets: Vec<AssetEntry<'a>>,
    /// Bytes behind the last entry belong to the table (DECISIONS R24).
    pub rest: &'a [u8],
}

pub struct AssetEntry<'a> {
    pub bytes: &'a [u8],
    pub part: Part,
    pub identifier: Option<u16>,
}

/// The MPT that `table` is, if all its entries read.
pub fn mpt<'a>(table: &Table<'a>) -> Option<Mpt<'a>> {
    if !(0x11..=0x20).contains(&table.number) {
        return None;
    }
    let mut reader = Reader::new(table.body);
    let (head, _) = reader.span(|reader| {
        reader.u8()?;
        reader.sized_by_u8()?;
        reader.sized_by_u16()
    })?;
    let count = reader.u8()?;
    let assets = (0..count)
        .map(|_| asset(&mut reader))
        .collect::<Option<_>>()?;
    Some(Mpt {
        head,
        assets,
        rest: reader.rest(),
    })
}

/// One entry, by the layout of DECISIONS R4.
fn asset<'a>(reader: &mut Reader<'a>) -> Option<AssetEntry<'a>> {
    let (bytes, (part, identifier)) = reader.span(|reader| {
        reader.take(5)?;
        reader.sized_by_u8()?;
        let part = part(reader.take(4)?);
        clock(reader)?;
        let identifier = first_identifier(reader)?;
        reader.sized_by_u16()?;
        Some((part, identifier))
    })?;
    Some(AssetEntry {
        bytes,
        part,
        identifier,
    })
}

fn part(kind: &[u8]) -> Part {
    match kind {
        b"stpp" => Part::Caption,
        b"aapp" => Part::Carousel,
        _ => Part::Other,
    }
}

/// The flag byte of an entry, and the two and four bytes that may follow it.
fn clock(reader: &mut Reader) -> Option<()> {
    if reader.u8()? & 1 != 0 && reader.take(2)?[1] & 1 != 0 {
        reader.take(4)?;
    }
    Some(())
}

/// The first location of type 0 gives the identifier, and still all locations must read.
fn first_identifier(reader: &mut Reader) -> Option<Location> {
    let count = reader.u8()?;
    let locations = (0..count)
        .map(|_| location(reader))
        .collect::<Option<Vec<_>>>()?;
    Some(locations.into_iter().flatten().next())
}

/// The identifier that a type 0 location gives; no other type gives one.
type Location = Option<u16>;

/// Locations by their type: 01 gives each a size that has the type byte in it, which is taken first.
fn location(reader: &mut Reader) -> Option<Location> {
    match reader.u8()? {
        0 => return reader.u16().map(Some),
        1 => reader.take(13 - 1)?,
        2 | 4 => reader.take(37 - 1)?,
        3 => reader.take(7 - 1)?,
        5 => reader.sized_by_u8()?,
        _ => return None,
    };
    Some(None)
}
