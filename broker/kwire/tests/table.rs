//! The table of requests, their headers, and the errors' numbers.

use kwire::api::*;
use kwire::{ErrorCode, WireError};
use std::collections::BTreeMap;

#[test]
fn keys_rise_and_versions_are_ranges() {
    assert!(APIS.windows(2).all(|it| it[0].key < it[1].key));
    assert!(APIS.iter().all(|it| 0 <= it.least && it.least <= it.greatest && it.first_flexible >= 0));
    for api in APIS {
        assert_eq!(Api::of(api.key), Ok(*api));
        for number in api.least..=api.greatest {
            assert_eq!(api.version(number), Ok(Version { number, flexible: number >= api.first_flexible }));
        }
        assert_eq!(api.version(api.least - 1), Err(WireError::BadVersion { key: api.key, version: api.least - 1 }));
        assert_eq!(api.version(api.greatest + 1), Err(WireError::BadVersion { key: api.key, version: api.greatest + 1 }));
    }
    assert_eq!(Api::of(99), Err(WireError::UnknownApi { key: 99 }));
}

/// The README's table is this one.
#[test]
fn the_readme_says_the_same() {
    let readme = include_str!("../README.md");
    for api in APIS {
        let row = format!("{} ({}) {}-{}", api.name, api.key, api.least, api.greatest);
        assert!(readme.contains(&row), "{row}");
    }
}

/// As Kafka's `ApiKeys.requestHeaderVersion` and `responseHeaderVersion` say, at the versions about the first flexible one.
#[test]
fn versions_of_headers() {
    let of = |api: Api, version| (api.request_header(version), api.response_header(version));
    assert_eq!((of(PRODUCE, 8), of(PRODUCE, 9)), ((1, 0), (2, 1)));
    assert_eq!((of(FETCH, 11), of(FETCH, 12)), ((1, 0), (2, 1)));
    assert_eq!((of(LIST_OFFSETS, 5), of(LIST_OFFSETS, 6)), ((1, 0), (2, 1)));
    assert_eq!((of(METADATA, 8), of(METADATA, 9)), ((1, 0), (2, 1)));
    assert_eq!((of(API_VERSIONS, 2), of(API_VERSIONS, 3)), ((1, 0), (2, 0)));
    assert_eq!((of(INIT_PRODUCER_ID, 1), of(INIT_PRODUCER_ID, 2)), ((1, 0), (2, 1)));
    assert_eq!(of(DESCRIBE_CLUSTER, 0), (2, 1));
}

/// What librdkafka needs to take a broker for one of 0.11 or later.
#[test]
fn librdkafkas_least_versions_are_there() {
    assert!(PRODUCE.version(0).is_ok() && FETCH.version(4).is_ok());
}

#[test]
fn errors_are_as_clients_know_them() {
    // librdkafka has names of its own for these.
    let own = BTreeMap::from([
        (-1, "UNKNOWN"),
        (0, "NO_ERROR"),
        (2, "INVALID_MSG"),
        (3, "UNKNOWN_TOPIC_OR_PART"),
        (6, "NOT_LEADER_FOR_PARTITION"),
        (10, "MSG_SIZE_TOO_LARGE"),
        (17, "TOPIC_EXCEPTION"),
    ]);
    let mut seen = 0;
    for line in include_str!("data/errors.txt").lines().filter(|it| !it.starts_with('#')) {
        let words: Vec<&str> = line.split(' ').collect();
        let number: i16 = words[0].parse().unwrap();
        let Some(code) = ErrorCode::of(number) else { continue };
        assert_eq!(own.get(&number).copied().unwrap_or(code.name()), words[1]);
        // kafka-python doesn't take a corrupt message for retriable; Kafka does.
        assert!(words[2] == "-" || words[2] == code.is_retriable().to_string() || code == ErrorCode::CorruptMessage, "{line}");
        seen += 1;
    }
    let newer: Vec<i16> = ErrorCode::ALL.iter().map(|it| it.number()).filter(|it| *it >= 98).collect();
    assert_eq!((seen + newer.len(), &newer[..]), (ErrorCode::ALL.len(), &[100, 103, 105][..]));
}

#[test]
fn errors_have_numbers_of_their_own() {
    assert!(ErrorCode::ALL.windows(2).all(|it| it[0].number() < it[1].number()));
    for code in ErrorCode::ALL {
        assert_eq!(ErrorCode::of(code.number()), Some(*code));
        assert!(code.text().ends_with('.') && !code.text().contains('\n') && i16::from(*code) == code.number());
    }
    assert_eq!((ErrorCode::of(-2), ErrorCode::of(4)), (None, None));
    assert_eq!(ErrorCode::NotCoordinator.to_string(), "NOT_COORDINATOR (16): The broker isn't the coordinator.");
}
