//! Frames: streams in pieces of every size, bad sizes, headers.

mod common;

use common::bytes_of;
use kwire::fetch::{FetchResponse, FetchedPartition, FetchedTopic};
use kwire::frame::*;
use kwire::groups::heartbeat::{HeartbeatRequest, HeartbeatResponse};
use kwire::metadata::describe_cluster::DescribeClusterRequest;
use kwire::versions::ApiVersionsResponse;
use kwire::{Message, Reader, Records, WireError, Writer};
use std::io::{self, IoSlice, Read, Write};

/// Three frames, of 8, 300 and 11 bytes.
fn stream() -> (Vec<u8>, Vec<Vec<u8>>) {
    let frames: Vec<Vec<u8>> = [8usize, 300, 11].iter().map(|it| (0..*it).map(|at| (at * it) as u8).collect()).collect();
    let bytes = frames.iter().flat_map(|it| [&(it.len() as u32).to_be_bytes(), &it[..]].concat()).collect();
    (bytes, frames)
}

fn drained(frames: &mut FrameDecoder, out: &mut Vec<Vec<u8>>) {
    while let Some(frame) = frames.next_frame().unwrap() {
        out.push(frame.to_vec());
    }
}

#[test]
fn pieces_of_every_size() {
    let (bytes, wanted) = stream();
    for size in 1..=bytes.len() {
        let mut frames = FrameDecoder::new(LEAST_REQUEST, 300);
        let mut got = Vec::new();
        for piece in bytes.chunks(size) {
            frames.push(piece);
            drained(&mut frames, &mut got);
        }
        assert_eq!((&got, frames.waiting()), (&wanted, 0), "pieces of {size}");
    }
}

#[test]
fn a_cut_at_every_place() {
    let (bytes, wanted) = stream();
    for at in 0..=bytes.len() {
        let mut frames = FrameDecoder::new(LEAST_REQUEST, 300);
        let mut got = Vec::new();
        frames.push(&bytes[..at]);
        drained(&mut frames, &mut got);
        let used: usize = got.iter().map(|it| it.len() + 4).sum();
        assert_eq!(frames.waiting(), at - used);
        frames.push(&bytes[at..]);
        drained(&mut frames, &mut got);
        assert_eq!(got, wanted, "cut at {at}");
    }
}

/// Gives at most three bytes a time, and is interrupted each second time.
struct Trickle<'a>(&'a [u8], bool);

impl Read for Trickle<'_> {
    fn read(&mut self, out: &mut [u8]) -> io::Result<usize> {
        self.1 = !self.1;
        if self.1 {
            return Err(io::ErrorKind::Interrupted.into());
        }
        let most = out.len().min(3);
        self.0.read(&mut out[..most])
    }
}

#[test]
fn from_a_reader() {
    let (bytes, wanted) = stream();
    let mut input = Trickle(&bytes, false);
    let mut frames = FrameDecoder::new(LEAST_REQUEST, 300);
    let mut got = Vec::new();
    loop {
        match frames.fill_from(&mut input, 64) {
            Ok(0) => break,
            Ok(count) => assert!(count <= 3),
            Err(error) => assert_eq!(error.kind(), io::ErrorKind::Interrupted),
        }
        drained(&mut frames, &mut got);
    }
    assert_eq!((got, frames.waiting()), (wanted, 0));
    assert_eq!(frames.fill_from(&mut &bytes[..], 5).unwrap(), 5);
    assert_eq!(frames.waiting(), 5);
}

/// Says that it gave more than there was room for.
struct Liar;

impl Read for Liar {
    fn read(&mut self, _: &mut [u8]) -> io::Result<usize> {
        Ok(usize::MAX)
    }
}

#[test]
fn from_a_reader_that_lies() {
    let mut frames = FrameDecoder::new(LEAST_REQUEST, 300);
    frames.push(&[0; 3]);
    assert!(frames.fill_from(&mut Liar, 5).is_ok());
    assert_eq!(frames.waiting(), 8);
}

#[test]
fn sizes_that_are_refused() {
    for size in [i32::MIN, -1, 0, 7, 301, i32::MAX] {
        let mut frames = FrameDecoder::new(LEAST_REQUEST, 300);
        frames.push(&size.to_be_bytes()[..3]);
        assert_eq!(frames.next_frame(), Ok(None));
        frames.push(&size.to_be_bytes()[3..]);
        let bad = Err(WireError::BadFrameSize { size, least: 8, greatest: 300 });
        assert_eq!(frames.next_frame(), bad);
        frames.push(&[0; 400]);
        assert_eq!(frames.next_frame(), bad, "it stays refused");
    }
}

/// By hand: key 12 (Heartbeat), version, correlation id 7, client id 'me'.
#[test]
fn headers_of_requests() {
    let (old, new) = (bytes_of("000c 0003 00000007 0002 6d65"), bytes_of("000c 0004 00000007 0002 6d65 00"));
    for (bytes, version, header) in [(&old, 3, 1), (&new, 4, 2)] {
        let mut reader = Reader::new(bytes);
        let read = RequestHeader::decode(&mut reader).unwrap();
        assert_eq!(read, RequestHeader { api_key: 12, api_version: version, correlation_id: 7, client_id: Some("me") });
        reader.finish().unwrap();
        let mut writer = Writer::new();
        read.encode_as(&mut writer, header).unwrap();
        assert_eq!(&writer.finish().to_vec(), bytes);
    }
    // No client id; a tagged field (tag 1, two bytes) is skipped; version 0 ends with the correlation id.
    let bytes = bytes_of("000c 0004 00000007 ffff 01 01 02 abcd");
    assert_eq!(RequestHeader::decode(&mut Reader::new(&bytes)).unwrap().client_id, None);
    let mut reader = Reader::new(&bytes);
    RequestHeader::decode_as(&mut reader, 0).unwrap();
    assert_eq!(reader.position(), 8);
    // A key that isn't known is read as of version 1, so that it can be refused by its name.
    let bytes = bytes_of("0063 0004 00000007 0002 6d65 ff");
    let mut reader = Reader::new(&bytes);
    assert_eq!(RequestHeader::decode(&mut reader).unwrap().api_key, 99);
    assert_eq!(reader.remaining(), 1);
    for length in 0..new.len() {
        let error = RequestHeader::decode(&mut Reader::new(&new[..length])).unwrap_err();
        assert!(matches!(error, WireError::Ended { .. }), "{length}: {error}");
    }
}

#[test]
fn whole_frames() {
    let message = HeartbeatRequest { group_id: "g", generation_id: 3, member_id: "m", group_instance_id: None };
    let old = request_frame(&message, 0, 7, Some("me")).unwrap();
    assert_eq!(old.to_vec(), bytes_of("00000016 000c 0000 00000007 0002 6d65 0001 67 00000003 0001 6d"));
    let new = request_frame(&message, 4, 7, None).unwrap();
    assert_eq!(new.to_vec(), bytes_of("00000015 000c 0004 00000007 ffff 00 02 67 00000003 02 6d 00 00"));
    let cluster = request_frame(&DescribeClusterRequest::default(), 0, 7, None).unwrap();
    assert_eq!(cluster.to_vec(), bytes_of("0000000d 003c 0000 00000007 ffff 00 00 00"));

    let message = HeartbeatResponse { throttle_time_ms: 1, error_code: 27 };
    let mut buffer = vec![9; 100];
    for (version, hex) in
        [(0, "00000006 00000007 001b"), (1, "0000000a 00000007 00000001 001b"), (4, "0000000c 00000007 00 00000001 001b 00")]
    {
        let frame = response_frame(&message, version, 7, buffer).unwrap();
        let bytes = frame.to_vec();
        assert_eq!(bytes, bytes_of(hex));
        let mut reader = Reader::new(&bytes[4..]);
        assert_eq!(read_response_header(&mut reader, HeartbeatResponse::API.response_header(version)), Ok(7));
        buffer = frame.into_buffer();
    }
    // The header of ApiVersions' answer has no tagged fields at any version (KIP-511).
    let frame = response_frame(&ApiVersionsResponse::default(), 3, 7, Vec::new()).unwrap();
    assert_eq!(frame.to_vec(), bytes_of("0000000c 00000007 0000 01 00000000 00"));
    assert_eq!(
        response_frame(&ApiVersionsResponse::default(), 5, 7, Vec::new()).unwrap_err(),
        WireError::BadVersion { key: 18, version: 5 }
    );
}

#[test]
fn frames_without_room_for_their_size() {
    let mut lent = Writer::new();
    lent.lend(&[0; 600]);
    let mut three = Writer::new();
    three.raw(&[0; 3]);
    for (writer, has) in [(Writer::new(), 0), (three, 3), (lent, 0)] {
        assert_eq!(writer.finish_frame().unwrap_err(), WireError::Ended { at: 0, needs: 4, has });
    }
}

/// Takes at most so many bytes a time, of several slices where they are short; each third call is interrupted; it holds so many in all.
struct Narrow {
    step: usize,
    room: usize,
    calls: usize,
    out: Vec<u8>,
}

impl Write for Narrow {
    fn write(&mut self, bytes: &[u8]) -> io::Result<usize> {
        self.write_vectored(&[IoSlice::new(bytes)])
    }

    fn write_vectored(&mut self, slices: &[IoSlice<'_>]) -> io::Result<usize> {
        self.calls += 1;
        if self.calls % 3 == 0 {
            return Err(io::ErrorKind::Interrupted.into());
        }
        let before = self.out.len();
        let most = self.step.min(self.room - before);
        self.out.extend(slices.iter().flat_map(|it| it.iter()).take(most));
        Ok(self.out.len() - before)
    }

    fn flush(&mut self) -> io::Result<()> {
        Ok(())
    }
}

#[test]
fn a_fetch_answer_is_written_from_where_its_batches_are() {
    let (first, second) = (vec![1; 3000], vec![2; 600]);
    let pieces = [&first[..], &second[..]];
    let partition = FetchedPartition { records: Records::Pieces(&pieces), ..Default::default() };
    let topic = FetchedTopic { topic: "pay", partitions: vec![partition] };
    let message = FetchResponse { responses: vec![topic], ..Default::default() };
    let frame = response_frame(&message, 12, 7, Vec::new()).unwrap();
    let slices = frame.slices();
    assert!(slices.iter().any(|it| it.as_ptr() == first.as_ptr()) && slices.iter().any(|it| it.as_ptr() == second.as_ptr()));

    for step in [1, 7, 33, 640, 3000, usize::MAX] {
        let mut narrow = Narrow { step, room: usize::MAX, calls: 0, out: Vec::new() };
        frame.write_to(&mut narrow).unwrap();
        assert_eq!(narrow.out, frame.to_vec(), "{step} bytes a time");
        let error = frame.write_to(&mut Narrow { step, room: 100, calls: 0, out: Vec::new() }).unwrap_err();
        assert_eq!(error.kind(), io::ErrorKind::WriteZero);
    }

    let mut frames = FrameDecoder::new(LEAST_RESPONSE, 4000);
    frames.push(&frame.to_vec());
    let mut reader = Reader::new(frames.next_frame().unwrap().unwrap());
    assert_eq!(read_response_header(&mut reader, 1), Ok(7));
    assert_eq!(FetchResponse::decode(&mut reader, 12).as_ref(), Ok(&message));
}
