/* Three nodes of one partition in one process: an election, batches from two clients on threads of their own, replication by
 * messages, reads, a change of the in-sync replicas, a stop and a restart, and the log's files. Each node has a lock of the host's.
 *
 * At the top of the repository, after `tools/embed`, which builds the library:
 *   cc -std=c11 -O2 -pthread -Iembed embed/c/example.c crates/kp_embed/out/libkp_embed.a "$KIT/c/liblibc_c.a" -o example
 * It prints one line for each step, and ends with status 0 if all went as written here.
 */
#include "kpart.h"

#include <pthread.h>
#include <stdio.h>
#include <stdlib.h>
#include <string.h>

enum { NODES = 3, CLIENTS = 2, BATCHES = 4 };

typedef struct {
    kp_handle node;
    pthread_mutex_t lock;
} locked_node;

typedef struct {
    locked_node *leader;
    kp_handle pass;
    kp_receipt receipts[BATCHES];
    uint64_t producer;
} client;

/* What a call answered, where it isn't what was wanted. */
static void wants(const char *what, uint32_t answer, uint32_t wanted) {
    char name[32];
    size_t length = kp_text(answer, (uint8_t *)name, sizeof name);
    printf("%-10s %.*s\n", what, (int)length, name);
    if (answer != wanted)
        exit(1);
}

static void holds(const char *what, bool fact) {
    if (!fact) {
        printf("not so: %s\n", what);
        exit(1);
    }
}

/* ---- a batch as a client sends it (Kafka protocol guide, 'Record Batch') */

static uint8_t *put(uint8_t *to, uint64_t value, int bytes) {
    for (int i = bytes - 1; i >= 0; i--)
        *to++ = (uint8_t)(value >> (8 * i));
    return to;
}

/* CRC-32C */
static uint32_t checksum(const uint8_t *bytes, size_t length) {
    uint32_t sum = 0xffffffff;
    for (size_t i = 0; i < length; i++) {
        sum ^= bytes[i];
        for (int bit = 0; bit < 8; bit++)
            sum = (sum >> 1) ^ (0x82f63b78 & (0 - (sum & 1)));
    }
    return ~sum;
}

/* One record whose value is one letter. Its bytes are answered. */
static size_t batch(uint8_t *to, uint64_t producer, uint32_t sequence, char value) {
    static const uint8_t head[] = {14, 0, 0, 0, 1, 2}; /* length 7; attributes, time and offset 0; no key; a value of one byte */
    uint8_t *at = to + 21;
    at = put(at, 0, 2);         /* attributes */
    at = put(at, 0, 4);         /* last offset delta */
    at = put(at, 1000, 8);      /* base timestamp */
    at = put(at, 1000, 8);      /* max timestamp */
    at = put(at, producer, 8);
    at = put(at, 0, 2);         /* producer epoch */
    at = put(at, sequence, 4);
    at = put(at, 1, 4);         /* count */
    memcpy(at, head, sizeof head);
    at += sizeof head;
    *at++ = (uint8_t)value;
    *at++ = 0;                  /* no headers */
    size_t size = (size_t)(at - to);
    put(to, 0, 8);              /* base offset */
    put(to + 8, size - 12, 4);
    put(to + 12, 0xffffffff, 4); /* no leader epoch yet */
    to[16] = 2;                 /* magic */
    put(to + 17, checksum(to + 21, size - 21), 4);
    return size;
}

/* ---- clients */

/* Each batch is copied and tested before the leader's lock is taken, so other clients wait for an append alone. */
static void *produces(void *of) {
    client *c = of;
    kp_handle handed = {0};
    uint32_t answer = KP_DONE;
    for (uint32_t i = 0; i < BATCHES && answer == KP_DONE; i++) {
        uint8_t bytes[128];
        size_t size = batch(bytes, c->producer, i, (char)('a' + i));
        answer = kp_hand(&handed, bytes, size);
        if (answer != KP_DONE)
            break;
        pthread_mutex_lock(&c->leader->lock);
        answer = kp_produce_handed(&c->leader->node, &c->pass, &handed, &c->receipts[i]);
        pthread_mutex_unlock(&c->leader->lock);
    }
    kp_close(&handed);
    return answer == KP_DONE ? NULL : c;
}

/* The follower asks, the leader answers, and the follower takes what it answered. */
static void fetches(locked_node *follower, locked_node *leader) {
    kp_handle message = {0};
    uint8_t addressee;
    wants("ask", kp_ask(&follower->node, &message), KP_DONE);
    wants("for whom", kp_addressee(&message, &addressee), KP_DONE);
    holds("for node 0", addressee == 0);
    wants("answer", kp_step(&leader->node, &message), KP_DONE);
    wants("take", kp_step(&follower->node, &message), KP_DONE);
    wants("gone", kp_close(&message), KP_CLOSED);
}

/* ---- reads */

/* The batches from the client's second one on; each has `size` bytes. */
static void reads(kp_handle *node, client *c, size_t size) {
    uint8_t bytes[128];
    kp_handle batches = {0};
    size_t count;
    uint32_t batch_size;
    wants("read", kp_read(node, &c->pass, c->receipts[1].base, &batches), KP_DONE);
    wants("count", kp_count(&batches, &count), KP_DONE);
    holds("those from there on", count == CLIENTS * BATCHES - c->receipts[1].base);
    wants("size", kp_batch_size(&batches, 0, &batch_size), KP_DONE);
    wants("short", kp_batch(&batches, 0, bytes, batch_size - 1), KP_BAD_LENGTH);
    wants("bytes", kp_batch(&batches, 0, bytes, sizeof bytes), KP_DONE);
    holds("the second value", batch_size == size && bytes[size - 2] == 'b');
    wants("beyond", kp_batch(&batches, count, bytes, sizeof bytes), KP_OUT_OF_RANGE);
    wants("close", kp_close(&batches), KP_DONE);
}

/* The client's second record, as a read-committed consumer gets it. */
static void reads_committed(kp_handle *node, client *c) {
    uint8_t value;
    kp_handle records = {0};
    size_t count;
    kp_committed_out found;
    wants("committed", kp_read_committed(node, &c->pass, c->receipts[1].base, &records), KP_DONE);
    wants("count", kp_count(&records, &count), KP_DONE);
    holds("those from there on", count == CLIENTS * BATCHES - c->receipts[1].base);
    wants("record", kp_committed(&records, 0, &found), KP_DONE);
    holds("the second one", found.offset == c->receipts[1].base && found.size == 1 && !found.null);
    wants("short", kp_value(&records, 0, &value, 0), KP_BAD_LENGTH);
    wants("value", kp_value(&records, 0, &value, 1), KP_DONE);
    holds("its letter", value == 'b');
    wants("no batch", kp_batch(&records, 0, &value, 1), KP_OTHER_KIND);
    wants("close", kp_close(&records), KP_DONE);
}

/* What a broker answers a consumer of transactions with: two batches from the client's second one on, and all that the consumer filters
 * them by; and what the node knows of itself. */
static void answers_a_consumer(kp_handle *node, client *c, size_t size) {
    kp_handle fetched = {0};
    kp_fetched_out found;
    kp_aborted_out aborted;
    kp_node_state state;
    kp_epoch_end end;
    kp_time_offset time;
    size_t count;
    wants("fetch", kp_fetch(node, &c->pass, c->receipts[1].base, (uint32_t)(2 * size), true, &fetched), KP_DONE);
    wants("fetched", kp_fetched(&fetched, &found), KP_DONE);
    holds("of one moment", found.watermark == CLIENTS * BATCHES && found.stable == found.watermark && found.end == found.watermark);
    holds("no transaction was aborted", found.aborted == 0);
    wants("none", kp_aborted(&fetched, 0, &aborted), KP_OUT_OF_RANGE);
    wants("count", kp_count(&fetched, &count), KP_DONE);
    holds("as many as fit", count == 2);
    wants("close", kp_close(&fetched), KP_DONE);
    wants("show", kp_show(node, &state), KP_DONE);
    holds("it leads", state.status == KP_LEADS && state.epoch == 0 && state.adopted && state.kept_epoch == 0);
    wants("end", kp_end_for(node, 7, &end), KP_DONE);
    holds("of epoch 0", end.found && end.epoch == 0 && end.end == CLIENTS * BATCHES);
    wants("time", kp_offset_for_time(node, &c->pass, 0, true, &time), KP_DONE);
    holds("the first record", time.found && time.offset == 0);
}

/* The records of a fetch with all that they have: each is found by its place, and its bytes are copied once. */
static void walks(kp_handle *node, client *c) {
    kp_handle fetched = {0};
    kp_record_place place = {0};
    kp_record_out record;
    kp_record_part_out part;
    uint8_t value;
    size_t count = 0;
    wants("fetch", kp_fetch(node, &c->pass, 0, 1048576, true, &fetched), KP_DONE);
    while (kp_record(&fetched, &place, &record) == KP_DONE) {
        holds("each once, in order", record.shown && record.offset == count && record.producer_id <= CLIENTS);
        wants("value", kp_record_part(&fetched, &place, KP_VALUE, &part), KP_DONE);
        holds("a letter", part.size == 1 && !part.null);
        wants("bytes", kp_record_bytes(&fetched, &place, KP_VALUE, &value, 1), KP_DONE);
        holds("one of four", value >= 'a' && value < 'a' + BATCHES);
        wants("no header", kp_record_part(&fetched, &place, KP_HEADERS, &part), KP_OUT_OF_RANGE);
        place = record.next;
        count++;
    }
    holds("all", count == CLIENTS * BATCHES);
    wants("close", kp_close(&fetched), KP_DONE);
}

/* What an operator asks of the leader: what the others have reported, which transactions are open; and the head of its last batch. */
static void answers_an_operator(kp_handle *node) {
    kp_handle opened = {0}, batches = {0};
    kp_known_out known;
    kp_producer_out producer;
    kp_batch_head_out head;
    size_t count;
    wants("known", kp_known(node, &known), KP_DONE);
    holds("it leads, and has proposed nothing", known.leadership.elected && known.leadership.leader == 0 && !known.pending);
    holds("the other's log ends where its own does", known.reported[1] == CLIENTS * BATCHES && known.reported[NODES] == UINT64_MAX);
    wants("open", kp_open_transactions(node, &opened), KP_DONE);
    wants("count", kp_count(&opened, &count), KP_DONE);
    holds("none", count == 0);
    wants("close", kp_close(&opened), KP_DONE);
    wants("producer", kp_producer(node, 1, &producer), KP_DONE);
    holds("its last batch", producer.found && producer.last_sequence == BATCHES - 1 && producer.open_from == UINT64_MAX);
    wants("log", kp_log_from(node, CLIENTS * BATCHES - 1, 1, &batches), KP_DONE);
    wants("head", kp_batch_head(&batches, 0, &head), KP_DONE);
    holds("the last batch", head.base == CLIENTS * BATCHES - 1 && head.count == 1 && head.producer_id <= CLIENTS && head.attributes == 0);
    wants("beyond", kp_batch_head(&batches, 1, &head), KP_OUT_OF_RANGE);
    wants("close", kp_close(&batches), KP_DONE);
}

/* The log is one segment, whose file has so many batches. */
static void has_file(kp_handle *node, size_t wanted) {
    uint8_t name[KP_NAME_BYTES];
    kp_handle segments = {0}, batches = {0};
    size_t count;
    wants("segments", kp_segments(node, &segments), KP_DONE);
    wants("count", kp_count(&segments, &count), KP_DONE);
    holds("one segment", count == 1);
    wants("short", kp_segment(&segments, 0, name, sizeof name - 1, &batches), KP_BAD_LENGTH);
    wants("segment", kp_segment(&segments, 0, name, sizeof name, &batches), KP_DONE);
    holds("its name", memcmp(name, "00000000000000000000.log", sizeof name) == 0);
    wants("count", kp_count(&batches, &count), KP_DONE);
    holds("all batches", count == wanted);
    wants("close", kp_close(&batches), KP_DONE);
    wants("close", kp_close(&segments), KP_DONE);
}

int main(void) {
    kp_handle cluster = {0};
    const kp_limits limits = {1048576, 4096, 1048576};
    static locked_node nodes[NODES];
    static client clients[CLIENTS];
    kp_handle controller = {0};
    wants("open", kp_open(&cluster, NODES, &limits), KP_DONE);
    wants("again", kp_open(&cluster, NODES, &limits), KP_IN_USE);
    for (int i = 0; i < NODES; i++) {
        pthread_mutex_init(&nodes[i].lock, NULL);
        wants("node", kp_open_node(&cluster, &nodes[i].node), KP_DONE);
    }
    wants("pass", kp_open_pass(&cluster, &controller), KP_DONE);

    kp_leadership_out leadership;
    wants("elect", kp_elect(&controller, 0, &leadership), KP_DONE);
    holds("node 0 leads in epoch 0", leadership.elected && leadership.leader == 0 && leadership.in_sync[2] && !leadership.in_sync[3]);
    for (int i = 0; i < NODES; i++) {
        kp_role role;
        wants("adopt", kp_adopt(&nodes[i].node, &role), KP_DONE);
        holds("only node 0 leads", role.leads == (i == 0));
    }

    pthread_t threads[CLIENTS];
    for (int i = 0; i < CLIENTS; i++) {
        clients[i].leader = &nodes[0];
        clients[i].producer = (uint64_t)i + 1;
        wants("pass", kp_open_pass(&cluster, &clients[i].pass), KP_DONE);
        pthread_create(&threads[i], NULL, produces, &clients[i]);
    }
    for (int i = 0; i < CLIENTS; i++) {
        void *fault;
        pthread_join(threads[i], &fault);
        holds("each batch was appended", fault == NULL);
    }
    client *one = &clients[0];
    uint8_t bytes[128];
    size_t size = batch(bytes, one->producer, BATCHES - 1, 'd');
    kp_receipt receipt;
    wants("repeat", kp_produce(&nodes[0].node, &one->pass, bytes, size, &receipt), KP_DONE);
    holds("it is a duplicate", receipt.duplicate && receipt.base == one->receipts[BATCHES - 1].base);
    bytes[size - 2] ^= 1;
    wants("bad bytes", kp_produce(&nodes[0].node, &one->pass, bytes, size, &receipt), 4);
    kp_handle handed = {0};
    wants("nothing in hand", kp_produce_handed(&nodes[0].node, &one->pass, &handed, &receipt), KP_CLOSED);
    wants("hand", kp_hand(&handed, bytes, size), KP_DONE);
    wants("bad bytes in hand", kp_produce_handed(&nodes[0].node, &one->pass, &handed, &receipt), 4);
    wants("close", kp_close(&handed), KP_DONE);
    wants("no place for bytes", kp_hand(&one->pass, bytes, size), KP_IN_USE);

    uint32_t ack;
    wants("acked", kp_acked(&nodes[0].node, &one->pass, &one->receipts[0], &ack), KP_DONE);
    holds("not yet", ack == KP_NOT_YET);
    for (int round = 0; round < 2; round++) /* the second fetch tells the leader how far each follower is */
        for (int i = 1; i < NODES; i++)
            fetches(&nodes[i], &nodes[0]);
    uint64_t offset;
    wants("raise", kp_raise(&nodes[0].node, &offset), KP_DONE);
    holds("all is committed", offset == CLIENTS * BATCHES);
    wants("acked", kp_acked(&nodes[0].node, &one->pass, &one->receipts[0], &ack), KP_DONE);
    holds("committed", ack == KP_COMMITTED);
    wants("watermark", kp_watermark(&one->pass, 0, &offset), KP_DONE);
    holds("the board shows it", offset == CLIENTS * BATCHES);

    reads(&nodes[0].node, one, size);
    reads_committed(&nodes[0].node, one);
    answers_a_consumer(&nodes[0].node, one, size);
    walks(&nodes[0].node, one);
    answers_an_operator(&nodes[0].node);

    kp_handle proposal = {0};
    wants("propose", kp_alter(&nodes[0].node, false, 2, &proposal), KP_DONE);
    uint8_t addressee;
    wants("for whom", kp_addressee(&proposal, &addressee), KP_DONE);
    holds("for the controller", addressee == KP_CONTROLLER);
    kp_handle again = {0};
    wants("once more", kp_repeat(&controller, &proposal, &again), KP_DONE);
    wants("decide", kp_decide(&controller, &proposal), KP_DONE);
    wants("learn", kp_step(&nodes[0].node, &proposal), KP_DONE);
    wants("decide again", kp_decide(&controller, &again), KP_DONE); /* nothing changes: the answer has the record as it is */
    wants("close", kp_close(&again), KP_DONE);
    wants("leadership", kp_leadership(&controller, &leadership), KP_DONE);
    holds("node 2 has left, once", leadership.in_sync[1] && !leadership.in_sync[2] && leadership.version == 2);

    const kp_marker marker = {3, 2000, 0, 0, false};
    wants("marker", kp_mark(&nodes[0].node, &one->pass, &marker, &receipt), KP_DONE);
    wants("checkpoint", kp_checkpoint(&nodes[0].node, &offset), KP_DONE);
    wants("stop", kp_stop(&nodes[0].node), KP_DONE);
    wants("down", kp_raise(&nodes[0].node, &offset), 28);
    kp_restarted restarted;
    has_file(&nodes[0].node, CLIENTS * BATCHES + 1); /* also while it is down */
    wants("restart", kp_restart(&nodes[0].node, &restarted), KP_DONE);
    holds("in its second life", restarted.life == 1);
    holds("at its checkpoint", restarted.watermark == CLIENTS * BATCHES && restarted.end == CLIENTS * BATCHES + 1);

    kp_role role;
    wants("misuse", kp_adopt(&controller, &role), KP_OTHER_KIND);
    for (int i = 0; i < NODES; i++)
        wants("close", kp_close(&nodes[i].node), KP_DONE);
    for (int i = 0; i < CLIENTS; i++)
        wants("close", kp_close(&clients[i].pass), KP_DONE);
    wants("close", kp_close(&controller), KP_DONE);
    wants("close", kp_close(&cluster), KP_DONE);
    wants("second", kp_close(&cluster), KP_CLOSED);
    wants("use", kp_leadership(&controller, &leadership), KP_CLOSED);
    return 0;
}
