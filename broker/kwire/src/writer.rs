//! Fields, written behind one another.

use crate::reader::LONGEST_STRING;
use crate::{Records, Uuid, WireError};
use std::io::{self, IoSlice, Write};

/// Pieces below this many bytes are copied, as a slice of its own costs more than they do.
const WORTH_LENDING: usize = 512;

/// The greatest length of bytes and of an array: its length plus one still fits an int32.
const LONGEST: usize = i32::MAX as usize - 1;

/// Writes the protocol's fields, in the forms that [`Reader`](crate::Reader) reads.
///
/// It owns what it writes, but for records, which it only borrows: [`Encoded`] gives all as slices to a vectored write.
#[derive(Clone, Debug, Default)]
pub struct Writer<'a> {
    own: Vec<u8>,
    /// Where in `own` a lent piece goes in, in rising order.
    lent: Vec<(usize, &'a [u8])>,
    lent_bytes: usize,
}

macro_rules! number {
    ($($(#[$doc:meta])* $name:ident: $type:ty;)*) => {$(
        $(#[$doc])*
        pub fn $name(&mut self, number: $type) {
            self.own.extend(number.to_be_bytes());
        }
    )*};
}

impl<'a> Writer<'a> {
    /// An empty one.
    #[must_use]
    pub fn new() -> Self {
        Self::default()
    }

    /// An empty one that writes into the memory of `buffer`, whose content is thrown away.
    #[must_use]
    pub fn reuse(mut buffer: Vec<u8>) -> Self {
        buffer.clear();
        Writer { own: buffer, ..Self::default() }
    }

    /// Bytes written so far, the lent ones with them.
    #[must_use]
    pub fn len(&self) -> usize {
        self.own.len() + self.lent_bytes
    }

    /// Whether nothing was written so far.
    #[must_use]
    pub fn is_empty(&self) -> bool {
        self.len() == 0
    }

    /// What was written.
    #[must_use]
    pub fn finish(self) -> Encoded<'a> {
        Encoded { own: self.own, lent: self.lent }
    }

    /// What was written, as a frame: its first four bytes, which have to be there, become the count of those behind them.
    ///
    /// # Errors
    /// [`WireError::TooLong`] where that count is no int32, [`WireError::Ended`] where fewer than four bytes of its own come first.
    pub fn finish_frame(mut self) -> Result<Encoded<'a>, WireError> {
        let has = self.lent.first().map_or(self.own.len(), |it| it.0);
        let length = self.len().saturating_sub(4);
        let size = i32::try_from(length).map_err(|_| WireError::TooLong { at: 0, length })?;
        if has < 4 {
            return Err(WireError::Ended { at: 0, needs: 4, has });
        }
        self.own[..4].copy_from_slice(&size.to_be_bytes());
        Ok(self.finish())
    }

    number! {
        /// An int8.
        i8: i8;
        /// An int16.
        i16: i16;
        /// An int32.
        i32: i32;
        /// An int64.
        i64: i64;
        /// A uint16.
        u16: u16;
        /// A uint32.
        u32: u32;
    }

    /// A boolean, as 0 or 1.
    pub fn bool(&mut self, value: bool) {
        self.i8(value.into());
    }

    /// A uuid.
    pub fn uuid(&mut self, value: Uuid) {
        self.own.extend(value.0);
    }

    /// Bytes without a length in front, copied.
    pub fn raw(&mut self, bytes: &[u8]) {
        self.own.extend(bytes);
    }

    /// Bytes without a length in front, lent where that is worth it.
    pub fn lend(&mut self, bytes: &'a [u8]) {
        if bytes.len() < WORTH_LENDING {
            self.own.extend(bytes);
        } else {
            self.lent.push((self.own.len(), bytes));
            self.lent_bytes += bytes.len();
        }
    }

    /// An unsigned varint.
    pub fn unsigned_varint(&mut self, number: u32) {
        self.bits(number.into());
    }

    /// A varint (zigzag).
    pub fn varint(&mut self, number: i32) {
        self.bits(((number << 1) ^ (number >> 31)) as u32 as u64);
    }

    /// A varlong (zigzag).
    pub fn varlong(&mut self, number: i64) {
        self.bits(((number << 1) ^ (number >> 63)) as u64);
    }

    fn bits(&mut self, mut number: u64) {
        while number > 0x7f {
            self.own.push(number as u8 | 0x80);
            number >>= 7;
        }
        self.own.push(number as u8);
    }

    /// A length of at most `LONGEST`, or a null, in 4 bytes or as a varint.
    fn long_length(&mut self, flexible: bool, length: Option<usize>) -> Result<(), WireError> {
        if let Some(length) = length.filter(|it| *it > LONGEST) {
            return Err(WireError::TooLong { at: self.len(), length });
        }
        match (flexible, length) {
            (true, length) => self.unsigned_varint(length.map_or(0, |it| it as u32 + 1)),
            (false, length) => self.i32(length.map_or(-1, |it| it as i32)),
        }
        Ok(())
    }

    /// A string or a null.
    ///
    /// # Errors
    /// [`WireError::TooLong`] above 32,767 bytes.
    pub fn nullable_string(&mut self, flexible: bool, text: Option<&str>) -> Result<(), WireError> {
        let length = text.map(str::len);
        if let Some(length) = length.filter(|it| *it > LONGEST_STRING) {
            return Err(WireError::TooLong { at: self.len(), length });
        }
        match (flexible, length) {
            (true, length) => self.unsigned_varint(length.map_or(0, |it| it as u32 + 1)),
            (false, length) => self.i16(length.map_or(-1, |it| it as i16)),
        }
        self.raw(text.unwrap_or_default().as_bytes());
        Ok(())
    }

    /// A string.
    ///
    /// # Errors
    /// [`WireError::TooLong`] above 32,767 bytes.
    pub fn string(&mut self, flexible: bool, text: &str) -> Result<(), WireError> {
        self.nullable_string(flexible, Some(text))
    }

    /// Bytes or a null, copied.
    ///
    /// # Errors
    /// [`WireError::TooLong`].
    pub fn nullable_bytes(&mut self, flexible: bool, bytes: Option<&[u8]>) -> Result<(), WireError> {
        self.long_length(flexible, bytes.map(<[u8]>::len))?;
        self.raw(bytes.unwrap_or_default());
        Ok(())
    }

    /// Bytes, copied.
    ///
    /// # Errors
    /// [`WireError::TooLong`].
    pub fn bytes(&mut self, flexible: bool, bytes: &[u8]) -> Result<(), WireError> {
        self.nullable_bytes(flexible, Some(bytes))
    }

    /// Records, which are lent and not copied.
    ///
    /// # Errors
    /// [`WireError::TooLong`].
    pub fn records(&mut self, flexible: bool, records: Records<'a>) -> Result<(), WireError> {
        self.long_length(flexible, records.len())?;
        for piece in records.pieces() {
            self.lend(piece);
        }
        Ok(())
    }

    /// An array or a null, each of its items by `item`.
    ///
    /// # Errors
    /// [`WireError::TooLong`], and what an item's writing gives.
    pub fn nullable_array<T>(
        &mut self,
        flexible: bool,
        items: Option<&[T]>,
        mut item: impl FnMut(&mut Self, &T) -> Result<(), WireError>,
    ) -> Result<(), WireError> {
        self.long_length(flexible, items.map(<[T]>::len))?;
        items.unwrap_or_default().iter().try_for_each(|it| item(self, it))
    }

    /// An array, each of its items by `item`.
    ///
    /// # Errors
    /// [`WireError::TooLong`], and what an item's writing gives.
    pub fn array<T>(
        &mut self,
        flexible: bool,
        items: &[T],
        item: impl FnMut(&mut Self, &T) -> Result<(), WireError>,
    ) -> Result<(), WireError> {
        self.nullable_array(flexible, Some(items), item)
    }

    /// No tagged fields, at the end of a structure of a flexible version; nothing at another version.
    pub fn tagged_fields(&mut self, flexible: bool) {
        if flexible {
            self.unsigned_varint(0);
        }
    }
}

/// What a [`Writer`] has written: bytes of its own, and records that are still where they were.
#[derive(Clone, Debug, Default)]
pub struct Encoded<'a> {
    own: Vec<u8>,
    lent: Vec<(usize, &'a [u8])>,
}

impl Encoded<'_> {
    /// All bytes in their order, as slices for [`Write::write_vectored`]. None of them is empty.
    #[must_use]
    pub fn slices(&self) -> Vec<IoSlice<'_>> {
        let mut out = Vec::with_capacity(2 * self.lent.len() + 1);
        let mut from = 0;
        for (place, piece) in &self.lent {
            if *place > from {
                out.push(IoSlice::new(&self.own[from..*place]));
            }
            out.push(IoSlice::new(piece));
            from = *place;
        }
        if from < self.own.len() {
            out.push(IoSlice::new(&self.own[from..]));
        }
        out
    }

    /// Count of all bytes.
    #[must_use]
    pub fn len(&self) -> usize {
        self.own.len() + self.lent.iter().map(|it| it.1.len()).sum::<usize>()
    }

    /// Whether there are no bytes.
    #[must_use]
    pub fn is_empty(&self) -> bool {
        self.len() == 0
    }

    /// All bytes, copied.
    #[must_use]
    pub fn to_vec(&self) -> Vec<u8> {
        let mut out = Vec::with_capacity(self.len());
        self.slices().iter().for_each(|it| out.extend_from_slice(it));
        out
    }

    /// Writes all bytes; records go from where they are to `output` without a copy.
    ///
    /// # Errors
    /// What `output` gives; `WriteZero` where it takes no more.
    pub fn write_to(&self, output: &mut impl Write) -> io::Result<()> {
        let mut slices = self.slices();
        let mut rest = slices.as_mut_slice();
        while !rest.is_empty() {
            match output.write_vectored(rest) {
                Ok(0) => return Err(io::ErrorKind::WriteZero.into()),
                Ok(count) => IoSlice::advance_slices(&mut rest, count),
                Err(error) if error.kind() == io::ErrorKind::Interrupted => {}
                Err(error) => return Err(error),
            }
        }
        Ok(())
    }

    /// Gives the memory back, for [`Writer::reuse`].
    #[must_use]
    pub fn into_buffer(self) -> Vec<u8> {
        self.own
    }
}
