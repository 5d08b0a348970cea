//! A model of the fragment room, byte by byte, by 01's rules on what is held and in two layouts. It counts the bytes that
//! change their offset; a body's own copy to its place is not among them.

use std::ops::Range;

use crate::streams::Piece;

/// The most fragments.
const MOST: usize = 256;

/// How the bodies stand, which are in the order of their firsts.
#[derive(Debug, Clone, Copy, PartialEq, Eq)]
pub enum Layout {
    /// One behind the other from the room's start. What is behind one that grows moves up, and what is behind one that goes
    /// moves down; a last does both.
    Packed,
    /// Some from the room's start, the others up to its end, all free bytes between them. What stands between these and one
    /// that grows or goes moves to their other side. Then it grows into them, or becomes free.
    Parted,
}

pub struct Room {
    layout: Layout,
    /// All T bytes, free ones too. M is T.
    pub bytes: Vec<u8>,
    /// Identifiers and lengths.
    held: Vec<(u16, usize)>,
    /// How many lead: they stand at the room's start. Packed, all do.
    leading: usize,
    /// How many bytes have changed their offset so far.
    pub moved: usize,
}

impl Room {
    pub fn new(layout: Layout, total: usize) -> Self {
        Self {
            layout,
            bytes: vec![0; total],
            held: Vec::new(),
            leading: 0,
            moved: 0,
        }
    }

    /// A payload comes. A first or a whole drops what is held of its identifier, and a first is held if there is room; a
    /// middle or last grows it if there is room, else it goes. A message that is joined is read where it stands, and goes.
    pub fn take(&mut self, piece: &Piece) {
        let mut held = self.held.iter();
        let index = held.position(|(identifier, _)| *identifier == piece.identifier);
        let fits = piece.body.len() <= self.bytes.len() - self.length(0..self.held.len());
        match (piece.place, index) {
            (1, index) => self.first(piece, index),
            (_, None) => {}
            (2, Some(index)) if fits => self.grow(index, piece.body),
            (3, Some(index)) if fits => self.end(index, piece.body),
            (_, Some(index)) => self.go(index),
        }
    }

    fn first(&mut self, piece: &Piece, old: Option<usize>) {
        let (count, length) = (self.held.len(), self.length(0..self.held.len()));
        let given = old.map_or(0, |index| self.held[index].1);
        let others = count - usize::from(old.is_some());
        let fits = others < MOST && piece.body.len() <= self.bytes.len() - (length - given);
        match old {
            Some(index) if fits => self.close(index),
            Some(index) => self.go(index),
            None if fits => self.part(count),
            None => {}
        }
        if fits {
            let at = self.length(0..others);
            self.write(at, piece.body);
            self.held.push((piece.identifier, piece.body.len()));
            self.leading = others + 1;
        }
    }

    fn grow(&mut self, index: usize, body: &[u8]) {
        let end = self.length(0..index + 1);
        match self.layout {
            Layout::Packed => self.shift(end..self.length(0..self.leading), end + body.len()),
            Layout::Parted => self.part(index + 1),
        }
        self.write(end, body);
        self.held[index].1 += body.len();
    }

    /// What has grown to a message goes. Parted, it is the last before the free bytes, and nothing moves.
    fn end(&mut self, index: usize, body: &[u8]) {
        self.grow(index, body);
        self.go(index);
    }

    fn go(&mut self, index: usize) {
        match self.layout {
            Layout::Packed => self.close(index),
            Layout::Parted => {
                self.part(self.leading.clamp(index, index + 1));
                self.held.remove(index);
                self.leading = index;
            }
        }
    }

    /// All others come to stand at the room's start, without the one that goes. Those before both it and the free bytes
    /// stay; the others are two runs, parted by one of the two.
    fn close(&mut self, index: usize) {
        let (leading, count) = (self.leading, self.held.len());
        let runs = if index < leading {
            [index + 1..leading, leading..count]
        } else {
            [leading..index, index + 1..count]
        };
        let mut to = self.length(0..leading.min(index));
        for run in runs {
            let (from, length) = (self.offset(run.start), self.length(run));
            self.shift(from..from + length, to);
            to += length;
        }
        self.held.remove(index);
        self.leading = count - 1;
    }

    /// The free bytes come to stand before this fragment, and what is between on their other side.
    fn part(&mut self, index: usize) {
        let run = index.min(self.leading)..index.max(self.leading);
        let from = self.offset(run.start);
        self.leading = index;
        let to = self.offset(run.start);
        self.shift(from..from + self.length(run), to);
    }

    fn shift(&mut self, from: Range<usize>, to: usize) {
        if from.start != to {
            self.moved += from.len();
            self.bytes.copy_within(from, to);
        }
    }

    fn write(&mut self, at: usize, body: &[u8]) {
        self.bytes[at..at + body.len()].copy_from_slice(body);
    }

    /// The bytes of these fragments.
    fn length(&self, fragments: Range<usize>) -> usize {
        self.held[fragments].iter().map(|(_, length)| length).sum()
    }

    /// Where a fragment begins; behind the last one, the room's end.
    fn offset(&self, index: usize) -> usize {
        if index < self.leading {
            self.length(0..index)
        } else {
            self.bytes.len() - self.length(index..self.held.len())
        }
    }
}

#[cfg(test)]
mod tests {
    use super::{Layout, MOST, Room};
    use crate::streams::Piece;

    /// What is held, each body by itself.
    type Held = Vec<(u16, Vec<u8>)>;

    /// 01's rules with no room to keep: answers whether a middle or last was joined.
    fn take(held: &mut Held, total: usize, piece: &Piece) -> bool {
        if piece.place < 2 {
            held.retain(|(identifier, _)| *identifier != piece.identifier);
        }
        let length: usize = held.iter().map(|(_, body)| body.len()).sum();
        let fits = length + piece.body.len() <= total;
        if piece.place == 1 && fits && held.len() < MOST {
            held.push((piece.identifier, piece.body.to_vec()));
            return false;
        }
        let index = held.iter().position(|(at, _)| *at == piece.identifier);
        let Some(index) = index.filter(|_| piece.place > 1) else {
            return false;
        };
        held[index].1.extend(piece.body);
        if piece.place == 3 || !fits {
            held.remove(index);
        }
        fits
    }

    /// Of each fragment, its identifier, offset and length.
    fn places(room: &Room) -> Vec<(u16, usize, usize)> {
        let place = |(index, held): (usize, &(u16, usize))| (held.0, room.offset(index), held.1);
        room.held.iter().enumerate().map(place).collect()
    }

    fn assert_stands(room: &Room, held: &Held) {
        assert_eq!(room.held.len(), held.len());
        for ((identifier, at, length), (other, body)) in places(room).into_iter().zip(held) {
            assert_eq!(identifier, *other);
            assert_eq!(&room.bytes[at..at + length], body);
        }
    }

    /// The bytes that must move for a piece: those of bodies that stand elsewhere afterwards, each once. One that is joined
    /// with a last is read behind all that come before it in the list.
    fn must_move(
        room: &Room,
        before: &[(u16, usize, usize)],
        piece: &Piece,
        joined: bool,
    ) -> usize {
        let after = places(room);
        let (mut moved, mut length) = (0, 0);
        for (identifier, from, bytes) in before {
            let own = *identifier == piece.identifier;
            let still = after.iter().find(|(other, ..)| other == identifier);
            let to = match still {
                Some((_, to, _)) if !own || joined => *to,
                None if own && joined => length,
                _ => *from,
            };
            moved += if to == *from { 0 } else { *bytes };
            length += bytes;
        }
        moved
    }

    /// Numbers in no order.
    struct Numbers(u64);

    impl Numbers {
        fn below(&mut self, end: usize) -> usize {
            self.0 = self.0.wrapping_mul(0x5851_f42d_4c95_7f2d).wrapping_add(1);
            (self.0 >> 33) as usize % end
        }
    }

    /// Runs many pieces of so many identifiers, with bodies of up to `longest` bytes, through rooms of T bytes.
    fn run(identifiers: usize, longest: usize, total: usize) {
        let mut numbers = Numbers(total as u64);
        let pool: Vec<u8> = (0..10_007).map(|_| numbers.below(256) as u8).collect();
        let mut packed = Room::new(Layout::Packed, total);
        let mut parted = Room::new(Layout::Parted, total);
        let mut held = Held::new();
        for _ in 0..6_000 {
            let start = numbers.below(pool.len() - longest);
            let piece = Piece {
                identifier: numbers.below(identifiers) as u16,
                place: [0, 1, 1, 1, 2, 2, 2, 3, 3][numbers.below(9)],
                body: &pool[start..][..numbers.below(longest + 1)],
            };
            let (before, moved) = (places(&parted), parted.moved);
            packed.take(&piece);
            parted.take(&piece);
            let joined = take(&mut held, total, &piece);
            assert_stands(&packed, &held);
            assert_stands(&parted, &held);
            let moved = parted.moved - moved;
            assert_eq!(moved, must_move(&parted, &before, &piece, joined));
        }
    }

    /// Both layouts hold what is to be held, and parted no byte moves twice for one piece.
    #[test]
    fn bodies_stand_where_they_are_to() {
        run(3, 20, 40);
        run(8, 40, 130);
        run(8, 40, 100_000);
        run(600, 9, 2_000);
        run(600, 9, 100_000);
    }
}
