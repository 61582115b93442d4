//! What can be wrong with bytes, or with what shall become bytes.

use std::fmt;

/// Why bytes couldn't be read, or a message couldn't be written.
///
/// `at` is the place: bytes from the start of what the [`Reader`](crate::Reader) was given, or of what the
/// [`Writer`](crate::Writer) has written so far.
#[derive(Clone, Copy, Debug, PartialEq, Eq)]
pub enum WireError {
    /// The bytes end before the field does.
    Ended {
        /// Where the field, or its content, begins.
        at: usize,
        /// Bytes that it takes.
        needs: usize,
        /// Bytes that are there.
        has: usize,
    },
    /// More bytes than the message has fields.
    LeftOver {
        /// Where the first byte stands that no field took.
        at: usize,
        /// How many there are.
        left: usize,
    },
    /// A null where the protocol has none at this version.
    Null {
        /// Where the field stands, or ends.
        at: usize,
    },
    /// A string that isn't UTF-8.
    NotUtf8 {
        /// Where the string's content begins.
        at: usize,
    },
    /// A varint with more bytes or bits than its type has.
    BadVarint {
        /// Where it begins.
        at: usize,
    },
    /// An array says that it has more items than the bytes behind it can hold.
    TooMany {
        /// Where the count stands.
        at: usize,
        /// Items that it claims.
        count: usize,
        /// Items that the rest could hold at most.
        most: usize,
    },
    /// A string of more than 32,767 bytes, or bytes or an array of more than 2,147,483,646.
    TooLong {
        /// Where it stands.
        at: usize,
        /// Its length.
        length: usize,
    },
    /// A batch's length field says less than a batch's head has.
    BadBatchLength {
        /// Where the batch begins.
        at: usize,
        /// What the field says.
        length: i32,
    },
    /// The table [`APIS`](crate::APIS) has no such version of this request.
    BadVersion {
        /// The request's key.
        key: i16,
        /// The version that was asked for.
        version: i16,
    },
    /// The table [`APIS`](crate::APIS) has no such request.
    UnknownApi {
        /// The request's key.
        key: i16,
    },
    /// A frame's size is outside of what is taken.
    BadFrameSize {
        /// The size that it claims, in bytes behind the size.
        size: i32,
        /// The least that is taken.
        least: usize,
        /// The greatest that is taken.
        greatest: usize,
    },
}

impl fmt::Display for WireError {
    fn fmt(&self, f: &mut fmt::Formatter<'_>) -> fmt::Result {
        match *self {
            Self::Ended { at, needs, has } => write!(f, "at byte {at}: {needs} bytes wanted, {has} left"),
            Self::LeftOver { at, left } => write!(f, "at byte {at}: {left} bytes behind the last field"),
            Self::Null { at } => write!(f, "at byte {at}: null isn't allowed here"),
            Self::NotUtf8 { at } => write!(f, "at byte {at}: a string isn't UTF-8"),
            Self::BadVarint { at } => write!(f, "at byte {at}: a varint is too long"),
            Self::TooMany { at, count, most } => write!(f, "at byte {at}: an array of {count} where {most} have room"),
            Self::TooLong { at, length } => write!(f, "at byte {at}: a length of {length} is above the greatest"),
            Self::BadBatchLength { at, length } => write!(f, "at byte {at}: a batch of length {length}"),
            Self::BadVersion { key, version } => write!(f, "request {key} isn't known at version {version}"),
            Self::UnknownApi { key } => write!(f, "request {key} isn't known"),
            Self::BadFrameSize { size, least, greatest } => write!(f, "a frame of {size} bytes, outside of {least} to {greatest}"),
        }
    }
}

impl std::error::Error for WireError {}
