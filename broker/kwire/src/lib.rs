//! Kafka's wire protocol in plain Rust: what bytes say, and nothing about what a log does.
//!
//! | You want | Take |
//! |---|---|
//! | frames out of a stream | [`frame::FrameDecoder`] |
//! | a frame's header, and so its request | [`frame::RequestHeader`], [`Api::of`] |
//! | a request or a response | [`produce`], [`fetch`], [`offsets`], [`metadata`], [`groups`], [`transactions`], [`versions`] |
//! | to read it, or to write it | [`Message::decode`], [`Message::encode`] |
//! | a whole frame to send | [`frame::response_frame`], [`frame::request_frame`] |
//! | which versions there are | [`APIS`] |
//! | heads of batches | [`batch`] |
//! | an error's number | [`ErrorCode`] |
//!
//! A broker's way with a request, from its bytes to those of the answer:
//!
//! ```
//! use kwire::frame::{FrameDecoder, LEAST_REQUEST, RequestHeader, response_frame};
//! use kwire::groups::heartbeat::{HeartbeatRequest, HeartbeatResponse};
//! use kwire::{Api, ErrorCode, Message, Reader, WireError, api};
//!
//! # fn main() -> Result<(), WireError> {
//! let came = b"\0\0\0\x16\0\x0c\0\0\0\0\0\x07\0\x02me\0\x01g\0\0\0\x03\0\x01m";
//! let mut frames = FrameDecoder::new(LEAST_REQUEST, 1 << 20);
//! frames.push(came);
//! let frame = frames.next_frame()?.expect("all bytes have come");
//!
//! let mut reader = Reader::new(frame);
//! let header = RequestHeader::decode(&mut reader)?;
//! let answer = match Api::of(header.api_key)? {
//!     api::HEARTBEAT => {
//!         let request = HeartbeatRequest::decode(&mut reader, header.api_version)?;
//!         assert_eq!((request.group_id, request.generation_id, request.member_id), ("g", 3, "m"));
//!         let response = HeartbeatResponse { error_code: ErrorCode::RebalanceInProgress.into(), ..Default::default() };
//!         response_frame(&response, header.api_version, header.correlation_id, Vec::new())?
//!     }
//!     other => return Err(WireError::UnknownApi { key: other.key }),
//! };
//! assert_eq!(answer.to_vec(), b"\0\0\0\x06\0\0\0\x07\0\x1b");
//! # Ok(()) }
//! ```
//!
//! No call panics on bytes from outside, and the memory that one takes is in proportion to the bytes that came, not to what they claim.
//! All of this is tested, and nothing of it is proved.

#![forbid(unsafe_code)]
#![warn(missing_docs)]

pub mod api;
pub mod batch;
mod codes;
mod crc;
mod error;
pub mod fetch;
mod fields;
pub mod frame;
pub mod groups;
mod message;
pub mod metadata;
pub mod offsets;
pub mod produce;
mod reader;
pub mod transactions;
pub mod versions;
mod writer;

pub use api::{APIS, Api, Version};
pub use codes::ErrorCode;
pub use crc::crc32c;
pub use error::WireError;
pub use fields::{Records, Uuid, Wire};
pub use message::{Message, Request, Response};
pub use reader::Reader;
pub use writer::{Encoded, Writer};
