//! Types of fields, each with its form at a version.

use crate::{Reader, Version, WireError, Writer};

/// A type of field, or a structure of fields, that has a form on the wire at each version of its request.
pub trait Wire<'a>: Sized {
    /// The fewest bytes that one takes, 1 or more.
    const LEAST: usize = 1;

    /// Reads one.
    ///
    /// # Errors
    /// What is wrong with the bytes.
    fn read(reader: &mut Reader<'a>, version: Version) -> Result<Self, WireError>;

    /// Writes one. A field that the version lacks is left out.
    ///
    /// # Errors
    /// [`WireError::TooLong`], and [`WireError::Null`] where the version has none.
    fn write(&self, writer: &mut Writer<'a>, version: Version) -> Result<(), WireError>;
}

macro_rules! plain {
    ($($type:ty: $name:ident, $least:expr;)*) => {$(
        impl<'a> Wire<'a> for $type {
            const LEAST: usize = $least;

            fn read(reader: &mut Reader<'a>, _: Version) -> Result<Self, WireError> {
                reader.$name()
            }

            fn write(&self, writer: &mut Writer<'a>, _: Version) -> Result<(), WireError> {
                writer.$name(*self);
                Ok(())
            }
        }
    )*};
}

plain! {
    i8: i8, 1;
    i16: i16, 2;
    i32: i32, 4;
    i64: i64, 8;
    bool: bool, 1;
    Uuid: uuid, 16;
}

impl<'a> Wire<'a> for &'a str {
    fn read(reader: &mut Reader<'a>, version: Version) -> Result<Self, WireError> {
        reader.string(version.flexible)
    }

    fn write(&self, writer: &mut Writer<'a>, version: Version) -> Result<(), WireError> {
        writer.string(version.flexible, self)
    }
}

impl<'a> Wire<'a> for Option<&'a str> {
    fn read(reader: &mut Reader<'a>, version: Version) -> Result<Self, WireError> {
        reader.nullable_string(version.flexible)
    }

    fn write(&self, writer: &mut Writer<'a>, version: Version) -> Result<(), WireError> {
        writer.nullable_string(version.flexible, *self)
    }
}

impl<'a> Wire<'a> for &'a [u8] {
    fn read(reader: &mut Reader<'a>, version: Version) -> Result<Self, WireError> {
        reader.bytes(version.flexible)
    }

    fn write(&self, writer: &mut Writer<'a>, version: Version) -> Result<(), WireError> {
        writer.bytes(version.flexible, self)
    }
}

impl<'a, T: Wire<'a>> Wire<'a> for Option<Vec<T>> {
    fn read(reader: &mut Reader<'a>, version: Version) -> Result<Self, WireError> {
        reader.nullable_array(version.flexible, T::LEAST, |it| T::read(it, version))
    }

    fn write(&self, writer: &mut Writer<'a>, version: Version) -> Result<(), WireError> {
        writer.nullable_array(version.flexible, self.as_deref(), |it, item| item.write(it, version))
    }
}

impl<'a, T: Wire<'a>> Wire<'a> for Vec<T> {
    fn read(reader: &mut Reader<'a>, version: Version) -> Result<Self, WireError> {
        reader.array(version.flexible, T::LEAST, |it| T::read(it, version))
    }

    fn write(&self, writer: &mut Writer<'a>, version: Version) -> Result<(), WireError> {
        writer.array(version.flexible, self, |it, item| item.write(it, version))
    }
}

impl<'a> Wire<'a> for Records<'a> {
    fn read(reader: &mut Reader<'a>, version: Version) -> Result<Self, WireError> {
        Ok(reader.nullable_bytes(version.flexible)?.map_or(Records::Null, Records::Whole))
    }

    fn write(&self, writer: &mut Writer<'a>, version: Version) -> Result<(), WireError> {
        writer.records(version.flexible, *self)
    }
}

/// A uuid (KIP-516): a topic's id. Sixteen bytes in the order of the wire.
#[derive(Clone, Copy, Debug, Default, PartialEq, Eq, PartialOrd, Ord, Hash)]
pub struct Uuid(pub [u8; 16]);

impl Uuid {
    /// The id that stands for none: sixteen zeros.
    pub const ZERO: Uuid = Uuid([0; 16]);
}

/// A records field: batches one behind another, never copied. A reader gives them whole; a writer takes pieces too.
#[derive(Clone, Copy, Debug, Default)]
pub enum Records<'a> {
    /// None: a null on the wire.
    #[default]
    Null,
    /// All in one slice.
    Whole(&'a [u8]),
    /// In pieces, which stand one behind another on the wire.
    Pieces(&'a [&'a [u8]]),
}

impl<'a> Records<'a> {
    /// Count of bytes; none for a null.
    #[must_use]
    pub fn len(&self) -> Option<usize> {
        match self {
            Records::Null => None,
            Records::Whole(bytes) => Some(bytes.len()),
            Records::Pieces(pieces) => Some(pieces.iter().map(|it| it.len()).sum()),
        }
    }

    /// Whether there are no bytes, as of a null.
    #[must_use]
    pub fn is_empty(&self) -> bool {
        self.len().unwrap_or(0) == 0
    }

    /// The bytes in one slice, as a reader gives them; none of a null, or of pieces.
    #[must_use]
    pub fn whole(&self) -> Option<&'a [u8]> {
        match self {
            Records::Whole(bytes) => Some(bytes),
            Records::Null | Records::Pieces(_) => None,
        }
    }

    /// The pieces: none of a null, one of a whole.
    #[must_use]
    pub fn pieces(&self) -> &[&'a [u8]] {
        match self {
            Records::Null => &[],
            Records::Whole(bytes) => std::slice::from_ref(bytes),
            Records::Pieces(pieces) => pieces,
        }
    }
}

/// By bytes, however they are cut in pieces.
impl PartialEq for Records<'_> {
    fn eq(&self, other: &Self) -> bool {
        let bytes = |it: &Self| it.pieces().concat();
        self.len() == other.len() && bytes(self) == bytes(other)
    }
}

impl Eq for Records<'_> {}
