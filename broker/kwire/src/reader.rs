//! Fields, read off a slice of bytes.

use crate::{Uuid, WireError};

/// The greatest length of a string in bytes, in either form.
pub(crate) const LONGEST_STRING: usize = 0x7fff;

/// Reads the protocol's fields off a slice, which it lends on and never copies.
///
/// Numbers are big endian. No call panics, and none takes memory by a length that the bytes merely claim. After an error the
/// reader stands somewhere behind its former place: throw it away.
///
/// Where a call takes `flexible`, it reads the compact form (KIP-482: length plus one, as an unsigned varint) if that is true, and
/// else the older one. As in Kafka, each negative length of the older form is a null.
///
/// Source: Kafka's protocol guide, 'Protocol Primitive Types'.
#[derive(Clone, Debug)]
pub struct Reader<'a> {
    data: &'a [u8],
    at: usize,
}

macro_rules! number {
    ($($(#[$doc:meta])* $name:ident: $type:ty;)*) => {$(
        $(#[$doc])*
        ///
        /// # Errors
        /// [`WireError::Ended`].
        pub fn $name(&mut self) -> Result<$type, WireError> {
            self.array_of_bytes().map(<$type>::from_be_bytes)
        }
    )*};
}

impl<'a> Reader<'a> {
    /// A reader at the start of `data`.
    #[must_use]
    pub fn new(data: &'a [u8]) -> Self {
        Reader { data, at: 0 }
    }

    /// Bytes read so far.
    #[must_use]
    pub fn position(&self) -> usize {
        self.at
    }

    /// Bytes not read so far.
    #[must_use]
    pub fn remaining(&self) -> usize {
        self.data.len() - self.at
    }

    /// Tells whether all bytes were read. A broker needn't ask: Kafka's doesn't mind bytes behind a request's last field.
    ///
    /// # Errors
    /// [`WireError::LeftOver`].
    pub fn finish(&self) -> Result<(), WireError> {
        match self.remaining() {
            0 => Ok(()),
            left => Err(WireError::LeftOver { at: self.at, left }),
        }
    }

    /// The next `count` bytes, lent.
    ///
    /// # Errors
    /// [`WireError::Ended`].
    pub fn take(&mut self, count: usize) -> Result<&'a [u8], WireError> {
        let rest = &self.data[self.at..];
        let taken = rest.get(..count).ok_or(WireError::Ended { at: self.at, needs: count, has: rest.len() })?;
        self.at += count;
        Ok(taken)
    }

    fn array_of_bytes<const N: usize>(&mut self) -> Result<[u8; N], WireError> {
        let mut out = [0; N];
        out.copy_from_slice(self.take(N)?);
        Ok(out)
    }

    number! {
        /// An int8.
        i8: i8;
        /// An int16.
        i16: i16;
        /// An int32.
        i32: i32;
        /// An int64.
        i64: i64;
        /// A uint16.
        u16: u16;
        /// A uint32.
        u32: u32;
    }

    /// A boolean: false is 0, and all else is true, as Kafka reads it.
    ///
    /// # Errors
    /// [`WireError::Ended`].
    pub fn bool(&mut self) -> Result<bool, WireError> {
        Ok(self.i8()? != 0)
    }

    /// A uuid: 16 bytes.
    ///
    /// # Errors
    /// [`WireError::Ended`].
    pub fn uuid(&mut self) -> Result<Uuid, WireError> {
        self.array_of_bytes().map(Uuid)
    }

    /// An unsigned varint: seven bits a byte, the lowest first, at most 5 bytes and 32 bits.
    ///
    /// # Errors
    /// [`WireError::Ended`], [`WireError::BadVarint`].
    pub fn unsigned_varint(&mut self) -> Result<u32, WireError> {
        let at = self.at;
        u32::try_from(self.bits(5)?).map_err(|_| WireError::BadVarint { at })
    }

    /// A varint: zigzag (0, -1, 1, -2 are written as 0, 1, 2, 3), at most 5 bytes.
    ///
    /// # Errors
    /// [`WireError::Ended`], [`WireError::BadVarint`].
    pub fn varint(&mut self) -> Result<i32, WireError> {
        let raw = self.unsigned_varint()?;
        Ok((raw >> 1) as i32 ^ -((raw & 1) as i32))
    }

    /// A varlong: as [`varint`](Self::varint), at most 10 bytes.
    ///
    /// # Errors
    /// [`WireError::Ended`], [`WireError::BadVarint`].
    pub fn varlong(&mut self) -> Result<i64, WireError> {
        let raw = self.bits(10)?;
        Ok((raw >> 1) as i64 ^ -((raw & 1) as i64))
    }

    fn bits(&mut self, most_bytes: u32) -> Result<u64, WireError> {
        let at = self.at;
        let mut out = 0;
        for index in 0..most_bytes {
            let byte = self.i8()? as u8;
            // The tenth byte has one bit alone that a number of 64 bits has room for.
            if index == 9 && byte > 1 {
                break;
            }
            out |= u64::from(byte & 0x7f) << (7 * index);
            if byte < 0x80 {
                return Ok(out);
            }
        }
        Err(WireError::BadVarint { at })
    }

    fn short_length(&mut self, flexible: bool) -> Result<Option<usize>, WireError> {
        if flexible { self.compact_length() } else { self.i16().map(|it| usize::try_from(it).ok()) }
    }

    fn long_length(&mut self, flexible: bool) -> Result<Option<usize>, WireError> {
        if flexible { self.compact_length() } else { self.i32().map(|it| usize::try_from(it).ok()) }
    }

    fn compact_length(&mut self) -> Result<Option<usize>, WireError> {
        self.unsigned_varint().map(|it| (it as usize).checked_sub(1))
    }

    /// A string or a null.
    ///
    /// # Errors
    /// [`WireError::Ended`], [`WireError::BadVarint`], [`WireError::NotUtf8`], [`WireError::TooLong`] above 32,767 bytes.
    pub fn nullable_string(&mut self, flexible: bool) -> Result<Option<&'a str>, WireError> {
        let at = self.at;
        let Some(length) = self.short_length(flexible)? else { return Ok(None) };
        if length > LONGEST_STRING {
            return Err(WireError::TooLong { at, length });
        }
        let at = self.at;
        std::str::from_utf8(self.take(length)?).map(Some).map_err(|_| WireError::NotUtf8 { at })
    }

    /// A string.
    ///
    /// # Errors
    /// As [`nullable_string`](Self::nullable_string), and [`WireError::Null`].
    pub fn string(&mut self, flexible: bool) -> Result<&'a str, WireError> {
        let at = self.at;
        self.nullable_string(flexible)?.ok_or(WireError::Null { at })
    }

    /// Bytes or a null; records have this form too.
    ///
    /// # Errors
    /// [`WireError::Ended`], [`WireError::BadVarint`].
    pub fn nullable_bytes(&mut self, flexible: bool) -> Result<Option<&'a [u8]>, WireError> {
        match self.long_length(flexible)? {
            None => Ok(None),
            Some(length) => self.take(length).map(Some),
        }
    }

    /// Bytes.
    ///
    /// # Errors
    /// As [`nullable_bytes`](Self::nullable_bytes), and [`WireError::Null`].
    pub fn bytes(&mut self, flexible: bool) -> Result<&'a [u8], WireError> {
        let at = self.at;
        self.nullable_bytes(flexible)?.ok_or(WireError::Null { at })
    }

    /// An array or a null. `least` is the fewest bytes that an item takes, 1 or more: a count that the rest can't hold is refused
    /// before an item is read.
    ///
    /// # Errors
    /// [`WireError::TooMany`], what an item's reading gives, [`WireError::Ended`], [`WireError::BadVarint`].
    pub fn nullable_array<T>(
        &mut self,
        flexible: bool,
        least: usize,
        mut item: impl FnMut(&mut Self) -> Result<T, WireError>,
    ) -> Result<Option<Vec<T>>, WireError> {
        let at = self.at;
        let Some(count) = self.long_length(flexible)? else { return Ok(None) };
        let most = self.remaining() / least.max(1);
        if count > most {
            return Err(WireError::TooMany { at, count, most });
        }
        // Memory grows with what was read, not with what is claimed.
        let mut out = Vec::with_capacity(count.min(8));
        for _ in 0..count {
            out.push(item(self)?);
        }
        Ok(Some(out))
    }

    /// An array, as [`nullable_array`](Self::nullable_array).
    ///
    /// # Errors
    /// As there, and [`WireError::Null`].
    pub fn array<T>(
        &mut self,
        flexible: bool,
        least: usize,
        item: impl FnMut(&mut Self) -> Result<T, WireError>,
    ) -> Result<Vec<T>, WireError> {
        let at = self.at;
        self.nullable_array(flexible, least, item)?.ok_or(WireError::Null { at })
    }

    /// Skips the tagged fields that end a structure of a flexible version (KIP-482); does nothing at another version.
    ///
    /// # Errors
    /// [`WireError::Ended`], [`WireError::BadVarint`].
    pub fn tagged_fields(&mut self, flexible: bool) -> Result<(), WireError> {
        if flexible {
            for _ in 0..self.unsigned_varint()? {
                let _tag = self.unsigned_varint()?;
                let size = self.unsigned_varint()?;
                self.take(size as usize)?;
            }
        }
        Ok(())
    }
}
