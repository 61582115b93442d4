//! Frames between real clients and librdkafka's mock cluster (`data/captured.txt` says which).

mod common;

use common::{bytes_of, case_of, hex_of};
use kwire::batch::{Batches, mended};
use kwire::fetch::FetchResponse;
use kwire::frame::{FrameDecoder, LEAST_REQUEST, RequestHeader, read_response_header, request_frame};
use kwire::groups::join_group::JoinGroupRequest;
use kwire::offsets::offset_fetch::OffsetFetchRequest;
use kwire::produce::ProduceRequest;
use kwire::transactions::init_producer_id::{InitProducerIdRequest, InitProducerIdResponse};
use kwire::transactions::txn_offset_commit::TxnOffsetCommitRequest;
use kwire::versions::ApiVersionsRequest;
use kwire::{Api, Message, Reader, crc32c};

struct Captured {
    client: &'static str,
    key: i16,
    version: i16,
    is_request: bool,
    /// Without its size.
    frame: Vec<u8>,
}

fn all() -> Vec<Captured> {
    let lines = include_str!("data/captured.txt").lines().filter(|it| !it.starts_with('#'));
    let one = |line: &'static str| {
        let words: Vec<&str> = line.split(' ').collect();
        let mut frames = FrameDecoder::new(LEAST_REQUEST, 1 << 20);
        frames.push(&bytes_of(words[4]));
        let frame = frames.next_frame().unwrap().unwrap().to_vec();
        assert_eq!(frames.waiting(), 0);
        Captured {
            client: words[0],
            key: words[1].parse().unwrap(),
            version: words[2].parse().unwrap(),
            is_request: words[3] == "request",
            frame,
        }
    };
    lines.map(one).collect()
}

/// The body of the only, or the first, captured request of this client.
fn body(client: &str, key: i16, version: i16, is_request: bool) -> Vec<u8> {
    let found = all().into_iter().find(|it| (it.client, it.key, it.version, it.is_request) == (client, key, version, is_request));
    let frame = found.unwrap().frame;
    let mut reader = Reader::new(&frame);
    if is_request {
        RequestHeader::decode(&mut reader).unwrap();
    } else {
        read_response_header(&mut reader, Api::of(key).unwrap().response_header(version)).unwrap();
    }
    frame[reader.position()..].to_vec()
}

/// Each frame is read to its last byte, and written again as it was.
#[test]
fn each_frame_is_read_and_written_again() {
    for it in all() {
        let api = Api::of(it.key).unwrap();
        let mut reader = Reader::new(&it.frame);
        let version = it.version;
        if it.is_request {
            let header = RequestHeader::decode(&mut reader).unwrap();
            assert_eq!((header.api_key, header.api_version, header.client_id), (it.key, version, Some("till")));
        } else {
            read_response_header(&mut reader, api.response_header(version)).unwrap();
        }
        let name = format!("{}{}", api.name, if it.is_request { "Request" } else { "Response" });
        let body = &it.frame[reader.position()..];
        let case = case_of(&name, version);
        assert_eq!((case.again)(body, version).as_deref(), Ok(body), "{} {name} {version}: {}", it.client, (case.show)(body, version));
    }
}

/// A whole frame, header and all, is what the client wrote.
#[test]
fn a_frame_with_its_header_is_the_clients() {
    let captured = all().into_iter().find(|it| it.client == "kcat" && it.key == 18 && it.version == 3).unwrap();
    let message = ApiVersionsRequest { client_software_name: "librdkafka", client_software_version: "2.0.2" };
    let frame = request_frame(&message, 3, 1, Some("till")).unwrap().to_vec();
    assert_eq!(hex_of(&frame[4..]), hex_of(&captured.frame));
    assert_eq!(frame[..4], (captured.frame.len() as u32).to_be_bytes());
}

#[test]
fn librdkafkas_producer_is_understood() {
    let bytes = body("rdkafka", 22, 4, true);
    let request = InitProducerIdRequest::decode(&mut Reader::new(&bytes), 4).unwrap();
    let transactional_id = Some("till-1");
    assert_eq!(request, InitProducerIdRequest { transactional_id, transaction_timeout_ms: 30_000, producer_id: -1, producer_epoch: -1 });

    let bytes = body("rdkafka", 22, 4, false);
    let response = InitProducerIdResponse::decode(&mut Reader::new(&bytes), 4).unwrap();
    assert_eq!((response.throttle_time_ms, response.error_code, response.producer_epoch), (0, 0, 0));
    assert!(response.producer_id > 0);

    let produced: Vec<_> = all().into_iter().filter(|it| it.client == "rdkafka" && it.key == 0 && it.is_request).collect();
    let ids: Vec<_> = produced.iter().map(|it| produced_by(&it.frame)).collect();
    assert_eq!(ids, [None, None, Some("till-1")]);
}

/// Looks at the one batch of a Produce request; gives its transactional id.
fn produced_by(frame: &[u8]) -> Option<&str> {
    let mut reader = Reader::new(frame);
    let header = RequestHeader::decode(&mut reader).unwrap();
    let request = ProduceRequest::decode(&mut reader, header.api_version).unwrap();
    assert_eq!((request.acks, request.timeout_ms), (-1, 30_000));
    assert_eq!((request.topic_data.len(), request.topic_data[0].name), (1, "pay"));
    let partition = &request.topic_data[0].partition_data[0];
    let records = partition.records.whole().unwrap();
    let batches: Vec<_> = Batches::new(records).collect::<Result<_, _>>().unwrap();
    let (head, bytes) = batches[0];
    assert_eq!((batches.len(), bytes, partition.index), (1, records, 0));
    assert_eq!((head.magic, head.base_offset, head.record_count, head.last_offset_delta), (2, 0, 1, 0));
    assert_eq!(crc32c(&bytes[21..]), head.crc);
    assert_eq!(head.is_transactional(), request.transactional_id.is_some());
    assert!(!head.is_control() && !head.has_append_time() && head.compression() == 0);
    assert_eq!(mended(bytes), None, "librdkafka's batches are as Kafka keeps them");
    request.transactional_id
}

#[test]
fn librdkafkas_group_is_understood() {
    let bytes = body("rdkafka", 11, 5, true);
    let request = JoinGroupRequest::decode(&mut Reader::new(&bytes), 5).unwrap();
    assert_eq!((request.group_id, request.session_timeout_ms, request.rebalance_timeout_ms), ("ledger", 45_000, 300_000));
    assert_eq!((request.member_id, request.group_instance_id, request.protocol_type), ("", None, "consumer"));
    assert_eq!(request.protocols.iter().map(|it| it.name).collect::<Vec<_>>(), ["range", "roundrobin"]);

    let bytes = body("flexible", 9, 7, true);
    let request = OffsetFetchRequest::decode(&mut Reader::new(&bytes), 7).unwrap();
    let topics = request.topics.as_deref().unwrap();
    assert_eq!((request.group_id, topics[0].name, &topics[0].partition_indexes[..]), ("ledger", "pay", &[0][..]));

    let bytes = body("flexible", 28, 3, true);
    let request = TxnOffsetCommitRequest::decode(&mut Reader::new(&bytes), 3).unwrap();
    assert_eq!((request.transactional_id, request.group_id, request.producer_id, request.producer_epoch), ("till-1", "ledger", 4001, 9));
    assert_eq!((request.generation_id, request.member_id, request.group_instance_id), (-1, "", None));
    let partition = &request.topics[0].partitions[0];
    assert_eq!((partition.partition_index, partition.committed_offset, partition.committed_leader_epoch), (0, 2, -1));
}

#[test]
fn the_fetched_batches_have_their_offsets() {
    let bytes = body("rdkafka", 1, 11, false);
    let response = FetchResponse::decode(&mut Reader::new(&bytes), 11).unwrap();
    let partition = &response.responses[0].partitions[0];
    let records = partition.records.whole().unwrap();
    let heads: Vec<_> = Batches::new(records).map(|it| it.unwrap().0).collect();
    assert!(!heads.is_empty());
    assert!(heads.iter().all(|it| it.magic == 2 && it.last_offset().unwrap() < partition.high_watermark));
}

/// sarama leaves the greatest timestamp at -1, and without a producer the base sequence at 0.
#[test]
fn saramas_batches_are_mended() {
    let produced: Vec<_> = all().into_iter().filter(|it| it.client == "sarama" && it.key == 0 && it.is_request).collect();
    assert_eq!(produced.len(), 2);
    for it in produced {
        let mut reader = Reader::new(&it.frame);
        RequestHeader::decode(&mut reader).unwrap();
        let request = ProduceRequest::decode(&mut reader, 3).unwrap();
        let before = request.topic_data[0].partition_data[0].records.whole().unwrap();
        let (old, _) = Batches::new(before).next().unwrap().unwrap();
        assert_eq!((old.is_unusual(), old.base_timestamp, old.max_timestamp, old.base_sequence), (true, 1_700_000_000_123, -1, 0));
        assert_eq!(crc32c(&before[21..]), old.crc);

        let after = mended(before).unwrap();
        let (new, _) = Batches::new(&after).next().unwrap().unwrap();
        // The two records are a second apart (tests/capture/sarama.go).
        assert_eq!((new.is_unusual(), new.max_timestamp), (false, 1_700_000_001_123));
        assert_eq!(new.base_sequence, if old.producer_id == -1 { -1 } else { 0 });
        assert_eq!(crc32c(&after[21..]), new.crc);
        let same = [0..17, 21..35, 43..53, 57..before.len()];
        assert!(same.into_iter().all(|it| before[it.clone()] == after[it]));
        assert_eq!(mended(&after), None);
    }
}
