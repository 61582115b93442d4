//! Which requests are answered, at which versions, and by whom.

use crate::reply::{Answered, Call, Close, Reply};
use crate::{fetch, groups, metadata, offsets, transactions};
use kwire::{Api, Message, Reader, WireError, api};

/// A request that the broker answers, with its least and greatest version.
#[derive(Clone, Copy, Debug, PartialEq, Eq)]
pub struct Advertised {
    /// The request.
    pub api: Api,
    /// The least version.
    pub least: i16,
    /// The greatest version.
    pub greatest: i16,
}

const fn whole(api: Api) -> Advertised {
    Advertised { api, least: api.least, greatest: api.greatest }
}

/// What the broker says of itself in its answer to ApiVersions. ListOffsets ends below 8, where a client may ask for what tiered storage has.
pub const ADVERTISED: &[Advertised] = &[
    whole(api::PRODUCE),
    whole(api::FETCH),
    Advertised { api: api::LIST_OFFSETS, least: 1, greatest: 7 },
    whole(api::METADATA),
    whole(api::OFFSET_COMMIT),
    whole(api::OFFSET_FETCH),
    whole(api::FIND_COORDINATOR),
    whole(api::JOIN_GROUP),
    whole(api::HEARTBEAT),
    whole(api::LEAVE_GROUP),
    whole(api::SYNC_GROUP),
    whole(api::DESCRIBE_GROUPS),
    whole(api::LIST_GROUPS),
    whole(api::API_VERSIONS),
    whole(api::CREATE_TOPICS),
    whole(api::INIT_PRODUCER_ID),
    whole(api::OFFSET_FOR_LEADER_EPOCH),
    whole(api::ADD_PARTITIONS_TO_TXN),
    whole(api::ADD_OFFSETS_TO_TXN),
    whole(api::END_TXN),
    whole(api::TXN_OFFSET_COMMIT),
    whole(api::DESCRIBE_CLUSTER),
];

/// Whether the request is answered at this version; else the connection is closed, as Kafka does.
pub fn check_version(key: i16, version: i16) -> Result<Api, WireError> {
    let found = ADVERTISED.iter().find(|it| it.api.key == key).ok_or(WireError::UnknownApi { key })?;
    if (found.least..=found.greatest).contains(&version) { Ok(found.api) } else { Err(WireError::BadVersion { key, version }) }
}

/// The request of this name, as an admin's line names it.
pub fn named(name: &str) -> Option<Api> {
    ADVERTISED.iter().map(|it| it.api).find(|it| it.name.eq_ignore_ascii_case(name))
}

/// What the request of this number is called.
pub fn called(key: i16) -> Option<&'static str> {
    ADVERTISED.iter().find(|it| it.api.key == key).map(|it| it.api.name)
}

/// Answers a request that isn't Produce.
pub fn answer(call: &mut Call<'_>, key: i16, body: &[u8], reply: Reply<'_>) -> Result<Answered, Close> {
    let version = call.version;
    let found = match check_version(key, version) {
        Err(WireError::BadVersion { .. }) if key == api::API_VERSIONS.key => return metadata::bad_api_versions(reply),
        checked => checked?,
    };
    let mut reader = Reader::new(body);
    macro_rules! by {
        ($handler:expr $(, $kept:ident)?) => {{
            let request = Message::decode(&mut reader, version)?;
            $handler(call, &request, reply$(.$kept())?)
        }};
    }
    match found {
        api::FETCH => by!(fetch::fetch),
        api::LIST_OFFSETS => by!(offsets::list_offsets),
        api::OFFSET_FOR_LEADER_EPOCH => by!(offsets::offset_for_leader_epoch),
        api::METADATA => by!(metadata::metadata),
        api::API_VERSIONS => by!(metadata::api_versions),
        api::CREATE_TOPICS => by!(metadata::create_topics),
        api::DESCRIBE_CLUSTER => by!(metadata::describe_cluster),
        api::FIND_COORDINATOR => by!(metadata::find_coordinator),
        api::INIT_PRODUCER_ID => by!(transactions::init_producer_id, kept),
        api::ADD_PARTITIONS_TO_TXN => by!(transactions::add_partitions_to_txn, kept),
        api::ADD_OFFSETS_TO_TXN => by!(transactions::add_offsets_to_txn, kept),
        api::END_TXN => by!(transactions::end_txn, kept),
        api::TXN_OFFSET_COMMIT => by!(transactions::txn_offset_commit, kept),
        api::JOIN_GROUP => by!(groups::join_group, kept),
        api::SYNC_GROUP => by!(groups::sync_group, kept),
        api::HEARTBEAT => by!(groups::heartbeat, kept),
        api::LEAVE_GROUP => by!(groups::leave_group, kept),
        api::OFFSET_COMMIT => by!(groups::offset_commit, kept),
        api::OFFSET_FETCH => by!(groups::offset_fetch, kept),
        api::DESCRIBE_GROUPS => by!(groups::describe_groups, kept),
        api::LIST_GROUPS => by!(groups::list_groups, kept),
        other => Err(WireError::UnknownApi { key: other.key }.into()),
    }
}

#[cfg(test)]
mod tests {
    use super::*;

    #[test]
    fn what_is_advertised_is_known() {
        for it in ADVERTISED {
            assert!(it.api.version(it.least).is_ok() && it.api.version(it.greatest).is_ok(), "{}", it.api.name);
            assert!(check_version(it.api.key, it.greatest + 1).is_err(), "{}", it.api.name);
            assert_eq!(named(it.api.name), Some(it.api));
        }
        assert!(check_version(77, 0).is_err());
    }
}
