//! Frames: a size of four bytes, a header, a message.

use crate::{Api, Encoded, Reader, Request, Response, WireError, Writer};
use std::io::{self, Read};

/// The fewest bytes behind the size of a request's frame: key, version and correlation id.
pub const LEAST_REQUEST: usize = 8;
/// The fewest bytes behind the size of a response's frame: the correlation id.
pub const LEAST_RESPONSE: usize = 4;
/// Bytes of the size in front of a frame.
const SIZE: usize = 4;
/// A decoder that holds nothing gives memory above this many bytes back.
const KEPT: usize = 4 << 20;

/// Cuts a stream of bytes into frames, however the bytes come.
///
/// It holds the bytes of frames that weren't asked for yet, and takes no memory for a frame before its bytes have come.
#[derive(Clone, Debug)]
pub struct FrameDecoder {
    held: Vec<u8>,
    /// Bytes at the start of `held` that were given out.
    used: usize,
    /// Bytes at the start of `held` that have come; behind them is room.
    came: usize,
    least: usize,
    greatest: usize,
}

impl FrameDecoder {
    /// Takes frames of `least` to `greatest` bytes behind their size. Kafka's own greatest for a request is 104,857,600
    /// (`socket.request.max.bytes`). A message that is read of a frame takes at most 64 times the frame's bytes, so choose less where many
    /// may come at once.
    #[must_use]
    pub fn new(least: usize, greatest: usize) -> Self {
        FrameDecoder { held: Vec::new(), used: 0, came: 0, least, greatest }
    }

    /// Adds bytes that came.
    pub fn push(&mut self, bytes: &[u8]) {
        self.room_for(bytes.len()).copy_from_slice(bytes);
        self.came += bytes.len();
    }

    /// Reads once, at most `most` bytes, and adds them. 0 says that the stream has ended, or that `most` is 0.
    ///
    /// # Errors
    /// What `input` gives.
    pub fn fill_from(&mut self, input: &mut impl Read, most: usize) -> io::Result<usize> {
        let read = input.read(self.room_for(most));
        self.came += read.as_ref().map_or(0, |it| *it).min(most);
        read
    }

    /// The next frame without its size, or none where its bytes haven't all come. The frame stays until the next call.
    ///
    /// # Errors
    /// [`WireError::BadFrameSize`], as soon as the size has come, and then each time: such a stream can't be read on.
    pub fn next_frame(&mut self) -> Result<Option<&[u8]>, WireError> {
        let rest = &self.held[self.used..self.came];
        let Some(size) = rest.first_chunk::<SIZE>() else { return Ok(None) };
        let size = i32::from_be_bytes(*size);
        let bad = WireError::BadFrameSize { size, least: self.least, greatest: self.greatest };
        let length = usize::try_from(size).ok().filter(|it| (self.least..=self.greatest).contains(it)).ok_or(bad)?;
        let Some(frame) = rest[SIZE..].get(..length) else { return Ok(None) };
        self.used += SIZE + length;
        Ok(Some(frame))
    }

    /// Bytes that have come and weren't given out as a frame.
    #[must_use]
    pub fn waiting(&self) -> usize {
        self.came - self.used
    }

    /// Room for so many bytes behind those that have come, of which none that was given out is kept. Bytes of earlier frames lie in it.
    fn room_for(&mut self, count: usize) -> &mut [u8] {
        self.held.copy_within(self.used..self.came, 0);
        self.came -= self.used;
        self.used = 0;
        if self.came == 0 && self.held.capacity() > KEPT {
            self.held = Vec::new();
        }
        let end = self.came + count;
        if self.held.len() < end {
            self.held.resize(end, 0);
        }
        &mut self.held[self.came..end]
    }
}

/// A request's header.
#[derive(Clone, Copy, Debug, PartialEq, Eq)]
pub struct RequestHeader<'a> {
    /// The request's key.
    pub api_key: i16,
    /// The request's version.
    pub api_version: i16,
    /// The number that the response has to bring back.
    pub correlation_id: i32,
    /// The client's name for itself, or null. In all versions it is a string with a length of two bytes (KIP-482).
    pub client_id: Option<&'a str>,
}

impl<'a> RequestHeader<'a> {
    /// Reads one of the version that its key and version have in the table; of version 1 where the key isn't known.
    ///
    /// # Errors
    /// [`WireError::Ended`], [`WireError::NotUtf8`], [`WireError::BadVarint`].
    pub fn decode(reader: &mut Reader<'a>) -> Result<Self, WireError> {
        let mut peek = reader.clone();
        let (key, version) = (peek.i16()?, peek.i16()?);
        Self::decode_as(reader, Api::of(key).map_or(1, |it| it.request_header(version)))
    }

    /// Reads one of this version: 0 has no client id, 2 and above have tagged fields.
    ///
    /// # Errors
    /// As [`decode`](Self::decode).
    pub fn decode_as(reader: &mut Reader<'a>, header: i16) -> Result<Self, WireError> {
        let (api_key, api_version, correlation_id) = (reader.i16()?, reader.i16()?, reader.i32()?);
        let client_id = if header >= 1 { reader.nullable_string(false)? } else { None };
        reader.tagged_fields(header >= 2)?;
        Ok(RequestHeader { api_key, api_version, correlation_id, client_id })
    }

    /// Writes it in this version.
    ///
    /// # Errors
    /// [`WireError::TooLong`] where the client id has more than 32,767 bytes.
    pub fn encode_as(&self, writer: &mut Writer<'_>, header: i16) -> Result<(), WireError> {
        writer.i16(self.api_key);
        writer.i16(self.api_version);
        writer.i32(self.correlation_id);
        if header >= 1 {
            writer.nullable_string(false, self.client_id)?;
        }
        writer.tagged_fields(header >= 2);
        Ok(())
    }
}

/// Reads a response's header of version 0 or 1 ([`Api::response_header`]): gives its correlation id.
///
/// # Errors
/// [`WireError::Ended`], [`WireError::BadVarint`].
pub fn read_response_header(reader: &mut Reader<'_>, header: i16) -> Result<i32, WireError> {
    let correlation_id = reader.i32()?;
    reader.tagged_fields(header >= 1)?;
    Ok(correlation_id)
}

/// Writes a response's header of version 0 or 1.
pub fn write_response_header(writer: &mut Writer<'_>, correlation_id: i32, header: i16) {
    writer.i32(correlation_id);
    writer.tagged_fields(header >= 1);
}

/// A request's frame, with size and header.
///
/// # Errors
/// As [`Message::encode`](crate::Message::encode).
pub fn request_frame<'a, M: Request<'a>>(
    message: &M,
    version: i16,
    correlation_id: i32,
    client_id: Option<&str>,
) -> Result<Encoded<'a>, WireError> {
    let mut writer = Writer::new();
    writer.i32(0);
    let header = RequestHeader { api_key: M::API.key, api_version: version, correlation_id, client_id };
    header.encode_as(&mut writer, M::API.request_header(version))?;
    message.encode(&mut writer, version)?;
    writer.finish_frame()
}

/// A response's frame, with size and header, written into the memory of `buffer`.
///
/// # Errors
/// As [`Message::encode`](crate::Message::encode).
pub fn response_frame<'a, M: Response<'a>>(
    message: &M,
    version: i16,
    correlation_id: i32,
    buffer: Vec<u8>,
) -> Result<Encoded<'a>, WireError> {
    let mut writer = Writer::reuse(buffer);
    writer.i32(0);
    write_response_header(&mut writer, correlation_id, M::API.response_header(version));
    message.encode(&mut writer, version)?;
    writer.finish_frame()
}
