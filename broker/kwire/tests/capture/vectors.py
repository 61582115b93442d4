"""vectors.py FILE: this crate's samples (tests/common/samples.rs), as kafka-python's own message classes write them."""
import sys
from kafka.protocol import admin, commit, fetch, group, metadata, offset, produce
from kafka.protocol.types import Schema, String

out = open(sys.argv[1], "w")
print("# Bodies of messages as kafka-python 2.0.2 writes them (tests/capture/vectors.py): name, version, bytes.", file=out)
BIG, TIME = 0x010203040506, 1700000000000


def whole(schema):
    """Some of its schemas name the class of strings where a string has to stand."""
    schema.fields = tuple(String("utf-8") if it is String else it for it in schema.fields)
    for field in schema.fields:
        if isinstance(getattr(field, "array_of", None), Schema):
            whole(field.array_of)


def put(name, classes, least, fields):
    """fields(v): the fields at version v, in their order."""
    for version, cls in enumerate(classes):
        if version >= least:
            whole(cls.SCHEMA)
            message = cls(*fields(version))  # encode() holds it by a weak reference alone
            print(name, version, message.encode().hex(), file=out)


def at(version, least, *values):
    return values if version >= least else ()


put("ProduceRequest", produce.ProduceRequest, 0, lambda v: (*at(v, 3, "tx"), -1, 1500, [("pay", [(3, b"batch")])]))
# Its version 8 has the record errors outside of the partition.
put("ProduceResponse", produce.ProduceResponse[:8], 0, lambda v: ([("pay", [(3, 87, BIG, *at(v, 2, TIME), *at(v, 5, 17))])], *at(v, 1, 70)))
put("FetchRequest", fetch.FetchRequest, 4, lambda v: (
    2, 500, 1, 65536, 1, *at(v, 7, 77, 8),
    [("pay", [(3, *at(v, 9, 6), BIG, *at(v, 5, 17), 4096)])], *at(v, 7, [("old", [4, 9])]), *at(v, 11, "r1")))
put("FetchResponse", fetch.FetchResponse, 4, lambda v: (
    70, *at(v, 7, 71, 77), [("pay", [(3, 1, BIG, 300, *at(v, 5, 17), [(4001, 250)], *at(v, 11, 2), b"batch")])]))
# Its versions 4 and 5 have a leader epoch of eight bytes.
put("ListOffsetsRequest", offset.OffsetRequest[:4], 1, lambda v: (2, *at(v, 2, 1), [("pay", [(3, *at(v, 4, 6), -2)])]))
put("ListOffsetsResponse", offset.OffsetResponse, 1, lambda v: (*at(v, 2, 70), [("pay", [(3, 74, TIME, BIG, *at(v, 4, 6))])]))
put("MetadataRequest", metadata.MetadataRequest, 0, lambda v: (["pay"], *at(v, 4, False)))
put("MetadataResponse", metadata.MetadataResponse, 0, lambda v: (
    *at(v, 3, 70), [(1, "h1", 9092, *at(v, 1, "r1"))], *at(v, 2, "kp"), *at(v, 1, 4),
    [(3, "pay", *at(v, 1, True), [(5, 3, 1, [1, 2], [1], *at(v, 5, [2]))])]))
put("OffsetCommitRequest", commit.OffsetCommitRequest, 0, lambda v: (
    "ledger", *at(v, 1, 12, "m1"), *at(v, 2, 86400000), [("pay", [(3, BIG, *((TIME,) if v == 1 else ()), "note")])]))
put("OffsetCommitResponse", commit.OffsetCommitResponse, 0, lambda v: (*at(v, 3, 70), [("pay", [(3, 22)])]))
put("OffsetFetchRequest", commit.OffsetFetchRequest, 0, lambda v: ("ledger", [("pay", [3, 5])]))
put("OffsetFetchResponse", commit.OffsetFetchResponse, 0, lambda v: (*at(v, 3, 70), [("pay", [(3, BIG, "note", 88)])], *at(v, 2, 16)))
put("FindCoordinatorRequest", commit.GroupCoordinatorRequest, 0, lambda v: ("ledger", *at(v, 1, 1)))
# Its version 1 has no throttle time.
put("FindCoordinatorResponse", commit.GroupCoordinatorResponse[:1], 0, lambda v: (15, 1, "h1", 9092))
put("JoinGroupRequest", group.JoinGroupRequest, 0, lambda v: ("ledger", 10000, *at(v, 1, 60000), "m1", "consumer", [("range", b"meta")]))
put("JoinGroupResponse", group.JoinGroupResponse, 0, lambda v: (*at(v, 2, 70), 79, 12, "range", "m2", "m1", [("m3", b"meta")]))
put("SyncGroupRequest", group.SyncGroupRequest, 0, lambda v: ("ledger", 12, "m1", [("m2", b"part")]))
put("SyncGroupResponse", group.SyncGroupResponse, 0, lambda v: (*at(v, 1, 70), 27, b"part"))
put("HeartbeatRequest", group.HeartbeatRequest, 0, lambda v: ("ledger", 12, "m1"))
put("HeartbeatResponse", group.HeartbeatResponse, 0, lambda v: (*at(v, 1, 70), 27))
put("LeaveGroupRequest", group.LeaveGroupRequest, 0, lambda v: ("ledger", "m1"))
put("LeaveGroupResponse", group.LeaveGroupResponse, 0, lambda v: (*at(v, 1, 70), 25))
put("DescribeGroupsRequest", admin.DescribeGroupsRequest, 0, lambda v: (["ledger", "other"], *at(v, 3, True)))
# Its version 3 has the authorized operations outside of the group.
put("DescribeGroupsResponse", admin.DescribeGroupsResponse[:3], 0, lambda v: (
    *at(v, 1, 70), [(69, "ledger", "Stable", "consumer", "range", [("m1", "till", "/h1", b"meta", b"part")])]))
put("ListGroupsRequest", admin.ListGroupsRequest, 0, lambda v: ())
put("ListGroupsResponse", admin.ListGroupsResponse, 0, lambda v: (*at(v, 1, 70), 14, [("ledger", "consumer")]))
put("ApiVersionsRequest", admin.ApiVersionRequest, 0, lambda v: ())
put("ApiVersionsResponse", admin.ApiVersionResponse, 0, lambda v: (35, [(18, 1, 4)], *at(v, 1, 70)))
put("CreateTopicsRequest", admin.CreateTopicsRequest, 0, lambda v: (
    [("pay", 3, 2, [(1, [4, 9])], [("k", "v")])], 1500, *at(v, 1, True)))
put("CreateTopicsResponse", admin.CreateTopicsResponse, 0, lambda v: (*at(v, 2, 70), [("pay", 36, *at(v, 1, "there"))]))
