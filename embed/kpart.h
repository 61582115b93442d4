/* kpart as a static library: one partition's replicated log, for services in C, C++ and Rust.
 *
 * The library owns boards, nodes, passes, messages and what was read, and their memory, which it takes by malloc, realloc and
 * free. It has no thread and no lock, and never waits. The host owns threads and locks.
 *
 * WHAT IS PROVED. The library is crates/kp_embed, written in Rattle: each function below is proved safe, to end, and to
 * meet its contract, which stands in crates/kp_embed/src/ and speaks of what the handles hold, before and after.
 * At each function stands the word of the contract that carries it (crates/kp_handles/specs/), and the call of kp_node or
 * kp_board whose clauses that word repeats. Also proved: a handle is Send, so it may go from thread to thread.
 * WHAT IS NOT PROVED. That callers keep the duties below; that malloc, realloc and free do what C says; that a call which says
 * KP_NO_ROOM or KP_MEMORY was refused memory, and that kp_close gives all back (both are tested); the C compiler and linker.
 * The layer's own unsafe lines are two, in crates/kp_handles: `Box::from_raw` in src/loose.rt, and `unsafe impl Send for
 * Handle` in src/handle.rt. Both are proved, as are the casts of a box's pointer there (proofs/handle, proofs/loose).
 *
 * DUTIES OF THE CALLER, which nothing checks:
 *  1. A kp_handle is all zero before its first use ("kp_handle h = {0};"). From then on only the library reads or writes its
 *     two words. It may be moved while no call runs with it, and the place that it was moved from counts as gone: a handle
 *     that was copied is used in one place only. No call is given a copy of a handle that was closed, or used, elsewhere.
 *  2. In one call no two pointers point to the same memory or to memory that overlaps, and none is null, also where a length
 *     is 0. Each points to readable memory of its type, and to writable memory where it is not const. A length is at most
 *     the bytes that lie there, and below 2^63. A bool is 0 or 1.
 *  3. One call at a time is given a handle: of two calls with one handle, one happens before the other, by a lock, a channel,
 *     the start or end of a thread, or whatever else orders memory. Calls with different handles may run at once, also of one
 *     cluster.
 *  4. Handles of different clusters never go into one call. (A closed handle is of any, and so is one that holds bytes.)
 *  5. No call is made from a signal handler, nor in the forked child of a process with threads.
 *  6. malloc and realloc align a block to each power of two up to 16 that divides its size.
 *
 * WHAT A CALL LOOKS AT FIRST, and answers by a number: a closed handle where an open one is wanted, so also a handle that was used
 * after its close, and a second close (KP_CLOSED); an open handle that holds something else (KP_OTHER_KIND); an open handle where
 * a closed one is wanted (KP_IN_USE); a number above its greatest (KP_OUT_OF_RANGE); a length above the greatest, or too small
 * (KP_BAD_LENGTH). Each comes only where what it says is so; where several are so, any of them may be answered. KP_NO_ROOM, that
 * the memory of a handle was refused, comes only where none of them is so. After each of these six nothing has changed.
 * KP_MEMORY is a refusal, as 1 to 35 are: docs/RULES.md has them, and after one a call has done what its contract says.
 *
 * WHAT A CALL WRITES through a parameter is written at KP_DONE alone, but for `place` of a receipt: kp_produce, kp_produce_handed
 * and kp_mark also write it after a refusal, and then nothing else of the receipt: at 8 where the record begins in the batch, at any
 * other one 0. After a number from 65 on no parameter has changed.
 */
#ifndef KPART_H
#define KPART_H

#include <stdbool.h>
#include <stddef.h>
#include <stdint.h>

#ifdef __cplusplus
extern "C" {
#endif

/* Holds a cluster, a node, a pass, a message, bytes in hand, or what was read; all zero it is closed, and holds nothing. */
typedef struct {
    void *at;
    uint64_t state;
} kp_handle;

/* What a call answers: 0, a refusal's number (docs/RULES.md says when it comes), or, from 65 on, a misuse's. */
enum {
    KP_DONE = 0,
    KP_F1_TRUNCATED = 1,
    KP_F2_BAD_MAGIC = 2,
    KP_F3_BAD_LENGTH = 3,
    KP_F4_BAD_CRC = 4,
    KP_F5_COMPRESSED = 5,
    KP_F6_BAD_ATTRIBUTES = 6,
    KP_F7_BAD_COUNT = 7,
    KP_F8_BAD_RECORD = 8,
    KP_F9_TOO_LARGE = 9,
    KP_F10_BAD_PRODUCER_FIELDS = 10,
    KP_F11_INVALID_PRODUCER_EPOCH = 11,
    KP_F12_OUT_OF_ORDER_SEQUENCE = 12,
    KP_F13_INVALID_TXN_STATE = 13,
    KP_F14_COORDINATOR_FENCED = 14,
    KP_F15_NOT_LEADER = 15,
    KP_F16_OFFSET_OUT_OF_RANGE = 16,
    KP_F17_FENCED_LEADER_EPOCH = 17,
    KP_F18_UNKNOWN_LEADER_EPOCH = 18,
    KP_F19_NOT_BOUNDARY = 19,
    KP_F20_BELOW_SETTLED = 20,
    KP_F21_NOT_IN_SYNC = 21,
    KP_F22_STALE_RECORD = 22,
    KP_F23_NOT_CAUGHT_UP = 23,
    KP_F24_RECORD_FULL = 24,
    KP_F25_OFFSETS_EXHAUSTED = 25,
    KP_F26_NOT_NEXT = 26,
    KP_F27_EPOCH_BACK = 27,
    KP_F28_DOWN = 28,
    KP_F29_STALE_ANSWER = 29,
    KP_F30_CONTROL_FROM_CLIENT = 30,
    KP_F31_BAD_SCRIPT = 31,
    KP_F32_DEVICE = 32,
    KP_F33_MEMORY = 33,
    KP_F34_CHANGE_PENDING = 34,
    KP_F35_BAD_FOLDER = 35,
    KP_MEMORY = KP_F33_MEMORY,
    KP_CLOSED = 65,
    KP_OTHER_KIND = 66,
    KP_IN_USE = 67,
    KP_NO_ROOM = 68,
    KP_OUT_OF_RANGE = 69,
    KP_BAD_LENGTH = 70
};

/* Writes the name of what a call answered, as "F22 StaleRecord", without a zero at its end, as far as `length` bytes reach;
 * answers how many bytes it wrote. A number that no call answers has no name. Memory: none.
 * Proved: `IsName`, and no byte behind those is written. */
size_t kp_text(uint32_t number, uint8_t *to, size_t length);

/* ---- opening and closing */

/* Sizes of the nodes' logs, in bytes. */
typedef struct {
    uint32_t segment_bytes;  /* the most of a segment that has more than one batch */
    uint32_t index_interval; /* between two entries of an index */
    uint32_t max_batch;      /* the most of a batch */
} kp_limits;

/* Opens a board of 0 to 7 nodes, at the start of a run. KP_OUT_OF_RANGE above 7, KP_IN_USE, KP_NO_ROOM (`BadBoard`).
 * Proved: `IsCluster` (kp_board's `Opened::new`, `Board::new`). */
uint32_t kp_open(kp_handle *cluster, uint8_t nodes, const kp_limits *limits);

/* Opens the cluster's next node, 0 first, up and idle with an empty log. KP_OUT_OF_RANGE where all are open.
 * Proved: `OpensNode` (`Node::new`), `BadNodeOpening`. */
uint32_t kp_open_node(kp_handle *cluster, kp_handle *node);

/* Opens a pass: what a client or the controller calls with, one for each that calls at the same time. It has seen nothing.
 * Proved: `OpensCaller` (`Board::pass`), `BadCallerOpening`. */
uint32_t kp_open_pass(kp_handle *cluster, kp_handle *pass);

/* Closes a handle and frees what it holds; what its cluster shares stays until the last of its handles is closed. KP_CLOSED
 * for a handle that is closed, which is left so. Proved: the handle is closed then. */
uint32_t kp_close(kp_handle *handle);

/* ---- leadership (the controller's record: who leads, and who is in sync), and watermarks, by a pass: no node's lock is needed */

typedef struct {
    uint32_t version;   /* every change raises it */
    uint32_t epoch;     /* the leader epoch; 0 before the first election */
    uint8_t leader;     /* 0 before the first election */
    bool elected;       /* whether there was one */
    bool in_sync[7];    /* each node, by its number */
} kp_leadership_out;

/* Tries once to elect a node. 21, 22, 24: see `Board::elect`. Proved: `CallerCalled`, `Elects`. */
uint32_t kp_elect(kp_handle *pass, uint8_t node, kp_leadership_out *found);

/* The controller's record. Proved: `CallerCalled`, `Looks` (`Board::record`). */
uint32_t kp_leadership(kp_handle *pass, kp_leadership_out *found);

/* A high watermark that the node had. KP_OUT_OF_RANGE where the cluster has no such node.
 * Proved: `CallerCalled`, `LearnsMark` (`Board::watermark`). */
uint32_t kp_watermark(kp_handle *pass, uint8_t node, uint64_t *offset);

/* One pass takes over the receipts that another one has, which keeps them, too: what kp_acked promises of the receipts of its pass, it
 * promises then of these, so hand receipts on with it. A pass has those that its own calls gave, and those that it was told of. Memory:
 * none. Proved: `ReceiptsTold` (`Board::tell_receipts`). */
uint32_t kp_tell_receipts(kp_handle *from, kp_handle *to);

/* ---- a node alone */

typedef struct {
    uint64_t start;  /* where it leads: its log's end when it began to; else 0 */
    uint32_t epoch;  /* the leader epoch */
    uint8_t leader;  /* where it follows: the leader; else 0 */
    bool leads;
} kp_role;

/* Takes up the controller's record. 22, 28. Proved: `NodeCalled`, `Adopts` (`Node::adopt`). */
uint32_t kp_adopt(kp_handle *node, kp_role *role);

/* Raises the high watermark, and tells it. 15, 28. Proved: `NodeCalled`, `Raises` (`Node::raise`). */
uint32_t kp_raise(kp_handle *node, uint64_t *offset);

/* Notes the high watermark as the checkpoint, and tells it. 28. Proved: `NodeCalled`, `Checkpoints` (`Node::checkpoint`). */
uint32_t kp_checkpoint(kp_handle *node, uint64_t *offset);

enum { KP_IS_DOWN = 0, KP_IS_IDLE = 1, KP_LEADS = 2, KP_FOLLOWS = 3 };

typedef struct {
    uint64_t life;       /* how often it was restarted */
    uint64_t end;        /* its log end offset; a log begins at 0 */
    uint64_t watermark;  /* its high watermark; of one that is down, that at which it went down */
    uint64_t stable;     /* the last stable offset at that watermark */
    uint64_t checkpoint; /* the high watermark from which a restart begins */
    uint64_t start;      /* where it leads: its log's end when it began to; else 0 */
    uint32_t kept_epoch; /* the leader epoch that it last took up, in this life or an earlier one; 0 where it has taken up none */
    uint32_t epoch;      /* the leader epoch in which it leads or follows; else 0 */
    bool adopted;        /* whether it has ever taken up a leader epoch */
    uint8_t status;      /* KP_IS_DOWN, KP_IS_IDLE (it has taken up no record since it started), KP_LEADS or KP_FOLLOWS */
    uint8_t leader;      /* where it follows: the leader; else 0 */
} kp_node_state;

/* The node's state, as it knows itself, of one moment; also of a node that is down. Memory: none.
 * Proved: `NodeCalled`, `Shows` (`Node::show`). */
uint32_t kp_show(kp_handle *node, kp_node_state *found);

typedef struct {
    uint64_t end;   /* where the epoch ends in the leader's log */
    uint32_t epoch;
    bool found;     /* else both are 0 */
} kp_epoch_end;

/* The largest leader epoch at most this one of which the leader's log has a batch, and where that ends (OffsetForLeaderEpoch). 15, 28.
 * Memory: none. Proved: `NodeCalled`, `EndsFor` (`Node::end_for`). */
uint32_t kp_end_for(kp_handle *node, uint32_t epoch, kp_epoch_end *found);

typedef struct {
    kp_leadership_out leadership; /* the controller's record, as the leader knows it */
    uint64_t reported[7];         /* the log end offset that each node has reported since this one began to lead; UINT64_MAX: none */
    bool pending;                 /* it has proposed other in-sync replicas, and hasn't learned yet what was decided */
    bool proposed[7];             /* whether each node is among those; false where none are pending */
} kp_known_out;

/* What a leader knows of the controller's record, what it has proposed, and what the other nodes have reported. 15, 28. Memory: none.
 * Proved: `NodeCalled`, `Knows` (`Node::known`). */
uint32_t kp_known(kp_handle *node, kp_known_out *found);

typedef struct {
    uint64_t open_from;         /* the offset of the first record of its open transaction; UINT64_MAX where none is open */
    uint32_t last_sequence;     /* the sequence number of its last record since its epoch began; UINT32_MAX where it has none */
    uint32_t coordinator_epoch; /* of its last marker; UINT32_MAX where it has none */
    uint16_t epoch;             /* the producer's epoch in its last batch */
    bool found;                 /* the log has a batch of it; else the others are 0 */
} kp_producer_out;

/* What the node's log has of a producer (DescribeProducers); also of a node that is down. Memory: none.
 * Proved: `NodeCalled`, `TellsProducer` (`Node::producer`). */
uint32_t kp_producer(kp_handle *node, uint64_t producer_id, kp_producer_out *found);

/* Lists the transactions that are open in the node's log into a closed handle, by rising first offset: kp_count says how many,
 * kp_open_transaction tells each. Also of a node that is down. 33. Proved: `OpenCalled` (`Node::open_transactions`). */
uint32_t kp_open_transactions(kp_handle *node, kp_handle *transactions);

/* Reads batches of the node's log from an offset on, also those that aren't committed, into a closed handle, for a host that writes them
 * down: as many as fit into so many bytes, but at least one where there is one. Also of a node that is down. 16, 33.
 * Proved: `LogCalled`, `ReadsLog` (`Node::log_from`). */
uint32_t kp_log_from(kp_handle *node, uint64_t from, uint32_t most_bytes, kp_handle *batches);

/* Stops the node, which keeps its log. 28. Proved: `NodeCalled`, `Stops` (`Node::stop`). */
uint32_t kp_stop(kp_handle *node);

typedef struct {
    uint64_t life;
    uint64_t end;       /* its log's end */
    uint64_t watermark; /* its checkpoint */
} kp_restarted;

/* Starts a stopped node again, idle. 24, 28, 33. Proved: `NodeCalled`, `Restarts` (`Node::restart`). */
uint32_t kp_restart(kp_handle *node, kp_restarted *restarted);

/* ---- opening again what a process has left: logs that outlive it
 *
 * A host keeps of each node its log (the bytes of its batches, in their order: kp_log_from, kp_batch) and its state (checkpoint, life
 * and kept epoch of kp_show), and the controller's record. A new process reads them back and goes on. Which write has to be on the disk
 * before which call is the host's duty: no code can see that a process left just this (docs/DURABLE.md).
 * Not kept, as a restart begins without it: high watermarks, passes, receipts, messages. */

typedef struct {
    uint64_t checkpoint; /* the high watermark from which a restart begins */
    uint64_t life;       /* how often it was restarted */
    uint32_t kept_epoch; /* the leader epoch that it last took up */
    bool adopted;        /* whether it has ever taken up one */
} kp_kept;

/* What the process that ended had promised: the batches of this node's log below the offset. They are what kp_acked had said Yes of. At
 * offset 0 nothing is promised. */
typedef struct {
    uint64_t offset;
    uint8_t node;
} kp_promise;

typedef struct {
    size_t size;    /* how many bytes the batches take: the place of the first byte behind them */
    uint64_t place; /* at fault 8: where the record begins in the batch that was to begin there; else 0 */
    uint32_t fault; /* why no batch begins there, 1 to 10; KP_DONE where no byte is left */
} kp_batches_found;

/* Puts the batches that bytes begin with, one behind another, each of at most `max_batch` bytes, into a closed handle, up to the first
 * fault, which is told: just those that kp_keep reads there. What follows the fault isn't looked at. Base offsets and leader epochs are
 * those that the bytes have (kp_batch_head); whether the batches are a log kp_keep says. So a host knows how much of a file is whole.
 * The bytes are copied once; O(n) in them: a pass for the checksums, and one over the records. 33. KP_IN_USE, KP_NO_ROOM (`BadFind`).
 * Proved: `BatchesCalled` (kp_log's `batches_in`). */
uint32_t kp_batches_in(const uint8_t *bytes, size_t length, uint32_t max_batch, kp_handle *batches, kp_batches_found *found);

/* The CRC-32C of bytes, by which a batch is sealed from its attributes on, for what else a host seals; of no bytes it is 0. O(n). Memory:
 * none. Proved: `crc` (kp_crc's `crc32c`): what a division of polynomials leaves. */
uint32_t kp_crc32c(const uint8_t *bytes, size_t length);

/* Opens a place for nodes that are read back; it has none yet. KP_IN_USE, KP_NO_ROOM (`BadLeave`). Proved: its limits, and no nodes. */
uint32_t kp_left(kp_handle *left, const kp_limits *limits);

/* Reads back a node's log from its bytes, which are copied once: node 0 first. It is down then, in the life behind the one that was kept.
 * 24 where there is none; 1 to 10, the bytes' first fault; 26, 27 or 25 by the first batch that doesn't stand behind those before it; 19
 * where the checkpoint is no boundary of the log; 33. KP_OUT_OF_RANGE where 7 nodes are there.
 * Proved: `KeepCalled` (`KeptNode::read_back`). */
uint32_t kp_keep(kp_handle *left, const uint8_t *bytes, size_t length, const kp_kept *kept);

/* Opens a cluster with these nodes, which kp_open_node gives, each down: kp_restart, and it goes on. The place is closed then. At 33 it is
 * closed, too: read back again.
 * DUTY: some process has left these nodes and this record, with no call under way that was not on the disk, and a node of it had held what
 * is promised (`MayOpenAgain`). KP_OUT_OF_RANGE where `known` is no record; KP_IN_USE of an open cluster (`BadAgain`).
 * Proved: `AgainCalled`: the run goes on from the one that left them (kp_node's `open_again`, `seat_again`). */
uint32_t kp_open_again(kp_handle *left, const kp_leadership_out *known, const kp_promise *promise, kp_handle *cluster);

/* Makes what was promised a part of what the pass has seen, so that all that it sees later goes on from that.
 * Proved: `CallerCalled`, `Recalls` (`Board::recall`). */
uint32_t kp_recall(kp_handle *pass);

/* What a record becomes by a node's election, so that it can be kept before kp_elect: 21, 24; KP_OUT_OF_RANGE where `known` is no record.
 * Memory: none. Proved: `NextElected`. */
uint32_t kp_elected(const kp_leadership_out *known, uint8_t node, kp_leadership_out *next);

/* What a record becomes by a decision on the proposal that a message is, so that it can be kept before kp_decide: 24; KP_OTHER_KIND of no
 * proposal, KP_OUT_OF_RANGE where `known` is no record. Memory: none. Proved: `NextDecided`. */
uint32_t kp_decided(kp_handle *message, const kp_leadership_out *known, kp_leadership_out *next);

/* ---- a node, for a pass */

typedef struct {
    uint64_t base;   /* the offset of the batch's first record */
    uint64_t last;   /* of its last record */
    uint64_t place;  /* after a refusal 8: where the record begins in the batch; else 0 */
    uint32_t epoch;  /* its leader epoch */
    bool duplicate;  /* it had been appended before */
} kp_receipt;

/* Hands the leader the bytes of a batch as a client sends them (magic 2). They are copied once. KP_BAD_LENGTH above
 * 2,147,483,659 bytes; the refusals are those of `Replica::produce`, and 28.
 * Proved: `PairCalled`, `Produces` (`Node::produce`), `FitsBatch`, `WritesReceipt`. */
uint32_t kp_produce(kp_handle *node, kp_handle *pass, const uint8_t *bytes, size_t length, kp_receipt *receipt);

/* The same in two calls, so that of several threads none copies bytes, or sums them up, while it has the node's lock.
 *
 * The first copies the bytes into a handle that is closed, or in place of those that it holds, and tests them: it needs no lock.
 * KP_BAD_LENGTH as above; KP_IN_USE where the handle holds something else. Proved: `BadHand`, `FitsBatch` (`Handed::tested`), and
 * that the handle holds these bytes then. */
uint32_t kp_hand(kp_handle *handed, const uint8_t *bytes, size_t length);

/* The second hands the leader the bytes that the handle holds, which it holds on. Proved: `HandedCalled`, `WritesReceipt`. */
uint32_t kp_produce_handed(kp_handle *node, kp_handle *pass, kp_handle *handed, kp_receipt *receipt);

typedef struct {
    uint64_t producer_id;       /* whose transaction ends, below 2^63 */
    uint64_t timestamp;         /* in milliseconds since 1970, below 2^62 */
    uint32_t coordinator_epoch; /* below 2^31 */
    uint16_t producer_epoch;    /* below 2^15 */
    bool commits;               /* or aborts */
} kp_marker;

/* Hands the leader a transaction's marker. KP_OUT_OF_RANGE for a field out of its range; the refusals of `Replica::mark`, and
 * 28. Proved: `PairCalled`, `Marks` (`Node::mark`), `WritesReceipt`. */
uint32_t kp_mark(kp_handle *node, kp_handle *pass, const kp_marker *marker, kp_receipt *receipt);

enum { KP_NOT_YET = 0, KP_COMMITTED = 1, KP_LOST = 2 };

/* Whether a receipt's batch is committed, by this node: KP_NOT_YET, KP_COMMITTED, or KP_LOST where another batch is committed
 * in its place. At KP_COMMITTED the batch of a receipt that the pass has (kp_tell_receipts) stands for good in the one committed list: of
 * another one's receipt only that a batch of its offset and epoch does. 28. Proved: `PairCalled`, `Acks` (`Node::acked`). */
uint32_t kp_acked(kp_handle *node, kp_handle *pass, const kp_receipt *receipt, uint32_t *ack);

/* Reads committed batches from an offset on into a closed handle, which shares their bytes: as many as fit into 1,048,576
 * bytes, but at least one where there is one. 16, 28, 33. Proved: `ReadCalled`, `Reads` (`Node::read`). */
uint32_t kp_read(kp_handle *node, kp_handle *pass, uint64_t from, kp_handle *batches);

/* Reads the records from an offset on that a read-committed consumer gets, into a closed handle: those below the node's last
 * stable offset that no aborted transaction has. 16, 28, 33. Proved: `CommittedCalled`, `ReadsCommitted` (`Node::committed`). */
uint32_t kp_read_committed(kp_handle *node, kp_handle *pass, uint64_t from, kp_handle *records);

typedef struct {
    uint64_t offset;
    uint64_t timestamp; /* milliseconds since 1970 */
    bool found;         /* else both are 0 */
} kp_time_offset;

/* Offset and timestamp of the first record whose timestamp is at least this one, if a consumer is shown that record: it lies below the high
 * watermark or, read committed, below the last stable offset (ListOffsets). A marker counts as a record. 28. Memory: none.
 * Proved: `PairCalled`, `TellsOffset` (`Node::offset_for_time`). */
uint32_t kp_offset_for_time(kp_handle *node, kp_handle *pass, uint64_t time, bool read_committed, kp_time_offset *found);

/* What a consumer's fetch gets, all of one moment, into a closed handle: batches as kp_read gives them, but as many as fit into so many
 * bytes (one at least where there is one); read committed those below the last stable offset, and the aborted transactions that a Kafka
 * client filters them by. A client that drops control batches and, of the transactional ones, those whose producer has an entry that
 * begins at or below the batch, until that producer's abort marker, is left with just the batches that are visible. 16, 28, 33.
 * Proved: `FetchCalled`, `Fetches` (`Node::fetch`). */
uint32_t kp_fetch(kp_handle *node, kp_handle *pass, uint64_t from, uint32_t most_bytes, bool read_committed, kp_handle *fetched);

/* ---- what was read: no node's lock is needed, and the log may go on meanwhile */

/* How many batches, records, open transactions or segments stand in a handle; of what was fetched, the batches. Proved: `HasCount`. */
uint32_t kp_count(kp_handle *handle, size_t *found);

/* How many bytes one of the batches has, from 0 on. KP_OUT_OF_RANGE. Proved: `HasSize`. */
uint32_t kp_batch_size(kp_handle *batches, size_t index, uint32_t *size);

typedef struct {
    uint64_t base;           /* the offset of its first record */
    uint64_t base_timestamp; /* its records' timestamps count from it: milliseconds since 1970 */
    uint64_t max_timestamp;  /* the greatest timestamp of its records */
    uint64_t producer_id;    /* whose it is, or whom its marker is for; UINT64_MAX where it has none */
    uint32_t epoch;          /* the leader epoch; UINT32_MAX where it has none */
    uint32_t count;          /* how many records it has, and offsets it takes */
    uint32_t base_sequence;  /* the sequence number of its first record; UINT32_MAX where it has none, as a marker */
    uint32_t size;           /* how many bytes it has */
    uint16_t producer_epoch; /* UINT16_MAX where it has none */
    uint16_t attributes;     /* bit 4: transactional; bit 5: control */
} kp_batch_head_out;

/* The head of one of the batches, from 0 on; none of its bytes is copied. KP_OUT_OF_RANGE. Memory: none. Proved: `HasHead`. */
uint32_t kp_batch_head(kp_handle *batches, size_t index, kp_batch_head_out *found);

/* Copies the bytes of one of the batches, once. KP_OUT_OF_RANGE; KP_BAD_LENGTH where `length` is less than they are, and then
 * nothing is written. Memory: none. Proved: `WritesBatch`: the batch's one spelling, and no byte after it. */
uint32_t kp_batch(kp_handle *batches, size_t index, uint8_t *to, size_t length);

/* Where a record stands among batches; all zero it is the first record of the first batch. Others come from `next` of a kp_record_out: made-up
 * numbers do no harm, but find what reads as a record there, if anything does. */
typedef struct {
    size_t batch;    /* which batch, from 0 on */
    uint32_t number; /* how many records stand in front of it in that batch */
    uint32_t byte;   /* how many bytes these take */
} kp_record_place;

typedef struct {
    kp_record_place next;    /* where the next record stands, in this batch or the one behind it */
    uint64_t offset;
    uint64_t timestamp;      /* milliseconds since 1970 */
    uint64_t producer_id;    /* whose it is; UINT64_MAX where it has none */
    uint16_t producer_epoch; /* UINT16_MAX where it has none */
    bool shown;              /* whether a consumer is shown it: it is data, and of no aborted transaction that came with the batches */
} kp_record_out;

/* The record at a place among the batches of a read, a fetch or a log: from the first place on, and on at `next`, each once, until
 * KP_OUT_OF_RANGE says that none stands there. Of what was fetched read committed, those that are `shown` are the records that a
 * read-committed consumer gets, but for those of the first batch below the offset that was asked for. No byte is copied. Memory: none.
 * Proved: `HasRecordAt`; of a fetch `clear` of `NamesAborted`. */
uint32_t kp_record(kp_handle *batches, const kp_record_place *place, kp_record_out *found);

/* A record's parts: its key, its value, and then of each header its key, and its value, as many as there are. */
enum { KP_KEY = 0, KP_VALUE = 1, KP_HEADERS = 2 };

typedef struct {
    size_t size; /* how many bytes it has */
    bool null;   /* it is null, which has no byte */
} kp_record_part_out;

/* A part of the record at a place, but for its bytes. KP_OUT_OF_RANGE where no record stands there, or where it hasn't got so many parts.
 * Memory: none. Proved: `HasPartAt`. */
uint32_t kp_record_part(kp_handle *batches, const kp_record_place *place, size_t part, kp_record_part_out *found);

/* Copies a part's bytes, once. KP_OUT_OF_RANGE as above; KP_BAD_LENGTH where `length` is less than it has, and then nothing is written.
 * Memory: none. Proved: `WritesPartAt`, and no byte after it. */
uint32_t kp_record_bytes(kp_handle *batches, const kp_record_place *place, size_t part, uint8_t *to, size_t length);

typedef struct {
    uint64_t watermark; /* the node's high watermark */
    uint64_t stable;    /* the last stable offset at that watermark */
    uint64_t end;       /* the node's log end offset; a log begins at 0 */
    size_t aborted;     /* how many aborted transactions there are */
} kp_fetched_out;

/* What a fetch gave, but for its batches, which kp_count, kp_batch_size and kp_batch tell, and the aborted transactions.
 * Proved: `HasFetched`. */
uint32_t kp_fetched(kp_handle *fetched, kp_fetched_out *found);

typedef struct {
    uint64_t producer_id;
    uint64_t first; /* the offset of its first record */
} kp_aborted_out;

/* One of the aborted transactions, from 0 on, by rising first offset. KP_OUT_OF_RANGE. Proved: `HasAborted`. */
uint32_t kp_aborted(kp_handle *fetched, size_t index, kp_aborted_out *found);

typedef struct {
    uint64_t producer_id;
    uint64_t first; /* the offset of its first record */
} kp_open_transaction_out;

/* One of the open transactions, from 0 on, by rising first offset. KP_OUT_OF_RANGE. Proved: `HasOpen`. */
uint32_t kp_open_transaction(kp_handle *transactions, size_t index, kp_open_transaction_out *found);

typedef struct {
    uint64_t offset;
    size_t size; /* how many bytes its value has */
    bool null;   /* its value is null, which has no byte */
} kp_committed_out;

/* One of the records, from 0 on, but for the bytes of its value. KP_OUT_OF_RANGE. Proved: `HasRecord`. */
uint32_t kp_committed(kp_handle *records, size_t index, kp_committed_out *found);

/* Copies a record's value. KP_OUT_OF_RANGE; KP_BAD_LENGTH where `length` is less than it has, and then nothing is written.
 * Memory: none. Proved: `WritesValue`, and no byte after it. */
uint32_t kp_value(kp_handle *records, size_t index, uint8_t *to, size_t length);

/* ---- a node's log as a broker keeps it in files */

/* Puts the node's log into a closed handle, segment by segment, with shares of all its batches, also of those that aren't
 * committed; also of a node that is down. 33. Proved: `SegmentsCalled` (`Node::log`, `Segments::runs`). */
uint32_t kp_segments(kp_handle *node, kp_handle *segments);

enum { KP_NAME_BYTES = 24 };

/* One of the segments, from 0 on: writes the name of its file, as 00000000000000000000.log, 24 bytes without a zero at their
 * end, and puts its batches into a closed handle; their bytes, one behind another, are the file. KP_OUT_OF_RANGE; KP_BAD_LENGTH
 * where `length` is less than the name has. 33. Proved: `SegmentCalled`. */
uint32_t kp_segment(kp_handle *segments, size_t index, uint8_t *name, size_t length, kp_handle *batches);

/* ---- messages. A host may drop one, or let it wait. */

/* A follower's request to its leader, put into a closed handle. 15, 28. Proved: `SendCalled`, `Asks` (`Node::ask`). */
uint32_t kp_ask(kp_handle *node, kp_handle *message);

/* A leader's proposal to the controller that a node joins the in-sync replicas, or leaves them, put into a closed handle. The
 * refusals of `Replica::alter`, and 28. Proved: `SendCalled`, `Alters` (`Node::alter`). */
uint32_t kp_alter(kp_handle *node, bool joins, uint8_t which, kp_handle *message);

/* Hands a node a message, which is used up: its handle holds the answer then, or is closed where there is none. The refusals
 * of `Node::step`, after which it is closed too. Proved: `StepCalled`, `Took` (`Node::step`). */
uint32_t kp_step(kp_handle *node, kp_handle *message);

/* The controller decides on a proposal, which is used up: its handle holds the answer then, for the node that proposed, or is
 * closed after a refusal. 24, 29. Proved: `DecideCalled`, `Decided` (`Board::decide`). */
uint32_t kp_decide(kp_handle *pass, kp_handle *message);

/* Puts a message once more into a closed handle, as a carrier may bring it twice: it says the same, and either may come first. The pass is
 * any of the cluster's, and stays as it is. 33. Memory: that of a handle. Proved: `RepeatCalled` (`Message::repeat`). */
uint32_t kp_repeat(kp_handle *pass, kp_handle *message, kp_handle *again);

enum { KP_CONTROLLER = 255 };

/* The number of the node that a message goes to, or KP_CONTROLLER. Proved: `HasAddressee` (`MessageBody::addressee`). */
uint32_t kp_addressee(kp_handle *message, uint8_t *node);

enum { KP_ASKS_FROM = 0, KP_BATCHES = 1, KP_DIVERGING = 2, KP_PROPOSES = 3, KP_DECIDES = 4 };

typedef struct {
    uint64_t offset;    /* KP_ASKS_FROM: the asker's log end offset; KP_DIVERGING: where the epoch ends in the leader's log */
    uint64_t count;     /* KP_BATCHES: how many */
    uint64_t watermark; /* KP_BATCHES: the leader's high watermark */
    uint32_t epoch;     /* KP_ASKS_FROM: the leader epoch of the asker's last batch; KP_DIVERGING: the epoch that the leader has;
                           KP_DECIDES: the leader epoch; UINT32_MAX where there is none */
    uint32_t version;   /* KP_PROPOSES: of the controller's record that the sender knows; KP_DECIDES: of the one that stands */
    uint8_t kind;
    uint8_t sender;     /* the node that sent it, or KP_CONTROLLER */
    bool in_sync[7];    /* KP_PROPOSES: the in-sync replicas asked for; KP_DECIDES: those that stand */
} kp_said_out;

/* What a message says, and who sent it; what its kind hasn't got is 0, or false. No batch is copied. Memory: none.
 * Proved: `HasSaid` (`MessageBody::said`). */
uint32_t kp_said(kp_handle *message, kp_said_out *found);

#ifdef __cplusplus
}
#endif

#endif
