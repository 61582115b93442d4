//! What is written is read, at each version, with its nulls and defaults.

mod common;

use common::{bytes_of, cases, decoded, encoded};
use kwire::fetch::{FetchRequest, FetchedPartition};
use kwire::frame::response_frame;
use kwire::groups::join_group::JoinGroupResponse;
use kwire::metadata::{AskedTopic, MetadataRequest, MetadataResponse, MetadataTopic};
use kwire::offsets::offset_fetch::OffsetFetchRequest;
use kwire::produce::{ProducePartition, ProduceRequest, ProduceTopic};
use kwire::versions::ApiVersionsResponse;
use kwire::{APIS, ErrorCode, Records, WireError};

#[test]
fn each_message_at_each_version() {
    let mut count = 0;
    for case in cases() {
        for version in case.versions() {
            let bytes = (case.encode)(version).unwrap_or_else(|it| panic!("{} {version}: {it}", case.name));
            assert_eq!((case.again)(&bytes, version).as_ref(), Ok(&bytes), "{} {version}", case.name);
            count += 1;
        }
        let bytes = (case.encode)(case.whole_at).unwrap();
        assert!((case.is_sample)(&bytes, case.whole_at), "{}: {}", case.name, (case.show)(&bytes, case.whole_at));
    }
    let versions: i16 = APIS.iter().map(|it| it.greatest - it.least + 1).sum();
    // Metadata's two messages have a second sample at three versions.
    assert_eq!(count, 2 * versions + 6);
}

/// A field that isn't there has its default.
#[test]
fn fields_that_a_version_lacks() {
    let bytes = encoded(&common::samples::fetch_request(), 4).unwrap();
    let request: FetchRequest = decoded(&bytes, 4).unwrap();
    assert_eq!((request.session_id, request.session_epoch, request.rack_id), (0, -1, ""));
    assert!(request.forgotten_topics_data.is_empty());
    let partition = &request.topics[0].partitions[0];
    assert_eq!((partition.current_leader_epoch, partition.last_fetched_epoch, partition.log_start_offset), (-1, -1, -1));
    assert!(MetadataRequest::default().allow_auto_topic_creation);
    assert_eq!(FetchedPartition::default().aborted_transactions, None);
}

/// The versions at which a nullable field may be null: by hand, all of the bytes.
#[test]
fn nulls_where_they_are_allowed() {
    let all = MetadataRequest::default();
    assert_eq!(encoded(&all, 1), Ok(bytes_of("ffffffff")));
    assert_eq!(encoded(&all, 9), Ok(bytes_of("00 01 00 00 00")));
    assert_eq!(decoded(&bytes_of("00 01 00 00 00"), 9), Ok(all.clone()));
    assert_eq!(encoded(&all, 0), Err(WireError::Null { at: 0 }));
    assert_eq!(decoded::<MetadataRequest>(&bytes_of("ffffffff"), 0), Err(WireError::Null { at: 0 }));

    let by_id = MetadataRequest { topics: Some(vec![AskedTopic::default()]), ..all };
    assert_eq!(encoded(&by_id, 9), Err(WireError::Null { at: 1 }));
    assert_eq!(decoded::<MetadataRequest>(&bytes_of("02 00 00 01 00 00 00"), 9), Err(WireError::Null { at: 1 }));
    let bytes = bytes_of("02 00000000000000000000000000000000 00 00 01 00 00 00");
    assert_eq!((encoded(&by_id, 10), decoded(&bytes, 10)), (Ok(bytes.clone()), Ok(by_id)));

    let nameless = MetadataResponse { topics: vec![MetadataTopic::default()], ..Default::default() };
    assert!(matches!(encoded(&nameless, 11), Err(WireError::Null { .. })));
    assert!(encoded(&nameless, 12).is_ok());

    let offsets = OffsetFetchRequest { group_id: "g", ..Default::default() };
    assert_eq!(encoded(&offsets, 2), Ok(bytes_of("0001 67 ffffffff")));
    assert_eq!(encoded(&offsets, 1), Err(WireError::Null { at: 3 }));

    let joined = JoinGroupResponse { protocol_name: None, ..Default::default() };
    assert!(matches!(encoded(&joined, 6), Err(WireError::Null { .. })));
    assert!(encoded(&joined, 7).is_ok());
    assert_eq!(JoinGroupResponse::default().protocol_name, Some(""), "which every version can write");
}

#[test]
fn records_that_are_null_or_empty() {
    let with = |records| ProduceRequest {
        topic_data: vec![ProduceTopic { name: "", partition_data: vec![ProducePartition { index: 0, records }] }],
        ..Default::default()
    };
    for (records, hex) in [(Records::Null, "00"), (Records::Whole(b""), "01")] {
        let bytes = bytes_of(&format!("00 0000 00000000 02 01 02 00000000 {hex} 00 00 00"));
        assert_eq!(encoded(&with(records), 9), Ok(bytes.clone()));
        assert_eq!(decoded(&bytes, 9), Ok(with(records)));
    }
}

#[test]
fn what_is_too_long_to_write() {
    let long = "x".repeat(32_768);
    let request = FetchRequest { rack_id: &long, ..Default::default() };
    assert!(matches!(encoded(&request, 11), Err(WireError::TooLong { length: 32_768, .. })));
    assert!(encoded(&request, 10).is_ok(), "where it isn't written");
}

/// A client that asks ApiVersions at a version that isn't known gets the table at version 0 (KIP-511).
#[test]
fn the_answer_to_a_version_that_isnt_known() {
    let answer = ApiVersionsResponse { error_code: ErrorCode::UnsupportedVersion.into(), ..ApiVersionsResponse::of_table() };
    let bytes = response_frame(&answer, 0, 7, Vec::new()).unwrap().to_vec();
    assert_eq!(bytes.len(), 4 + 4 + 2 + 4 + 6 * APIS.len());
    assert_eq!(bytes[4..20], bytes_of("00000007 0023 00000016 0000 0000 000b")[..]);
    assert_eq!(bytes[bytes.len() - 6..], bytes_of("003c 0000 0000")[..]);
}
