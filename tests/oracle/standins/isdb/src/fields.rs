//! Reading one field after the other: each reader takes its bytes from the front, or gives `None` if they
//! are not all there.

/// The bytes that are still to be read.
pub(crate) struct Fields<'a>(pub(crate) &'a [u8]);

impl<'a> Fields<'a> {
    pub(crate) fn bytes(&mut self, length: usize) -> Option<&'a [u8]> {
        let (taken, rest) = self.0.split_at_checked(length)?;
        self.0 = rest;
        Some(taken)
    }

    pub(crate) fn byte(&mut self) -> Option<u8> {
        Some(self.bytes(1)?[0])
    }

    /// Two bytes, the upper first.
    pub(crate) fn number(&mut self) -> Option<u16> {
        let taken = self.bytes(2)?;
        Some(u16::from_be_bytes([taken[0], taken[1]]))
    }

    /// A length byte and as many bytes.
    pub(crate) fn short_run(&mut self) -> Option<&'a [u8]> {
        let length = self.byte()?;
        self.bytes(usize::from(length))
    }

    /// A 16-bit length and as many bytes.
    pub(crate) fn long_run(&mut self) -> Option<&'a [u8]> {
        let length = self.number()?;
        self.bytes(usize::from(length))
    }

    /// A count byte and as many entries, all of which must read.
    pub(crate) fn entries<T>(&mut self, entry: fn(&mut Self) -> Option<T>) -> Option<Vec<T>> {
        let count = self.byte()?;
        (0..count).map(|_| entry(self)).collect()
    }
}
