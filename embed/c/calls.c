/* A test of the C face: each field of each struct by a value that no other field has, every block of memory given back once all handles are
 * closed, and each refusal of the header by its name. `tools/embed gate` builds and runs it:
 *
 *   cc -std=c11 -Wl,--wrap=malloc,--wrap=realloc,--wrap=free -Iembed embed/c/calls.c LIBRARY HEAP -o calls && ./calls embed/rust/tests
 *
 * The folder has the batches: one_record.batch; transaction.batch, which is producer 12's, of epoch 0: the values 'paid' and null; and
 * keyed.batch, which python3-kafka built of three records. The numbers that are wanted are worked out by docs/RULES.md.
 */
#include "world.h"

static batch transaction, keyed, broken;

/* CRC-32C */
static uint32_t checksum(const uint8_t *bytes, size_t length) {
    uint32_t sum = 0xffffffff;
    for (size_t i = 0; i < length; i++) {
        sum ^= bytes[i];
        for (int bit = 0; bit < 8; bit++)
            sum = (sum >> 1) ^ (0x82f63b78 & (0 - (sum & 1)));
    }
    return ~sum;
}

/* The checksum of a batch that was changed. */
static void sums(batch *changed) {
    uint32_t sum = checksum(changed->bytes + 21, changed->size - 21);
    for (int i = 0; i < 4; i++)
        changed->bytes[17 + i] = (uint8_t)(sum >> (24 - 8 * i));
}

/* The one record says that it is a byte longer than it is; the checksum is right. */
static void breaks_record(void) {
    broken = one_record;
    broken.bytes[61] += 2; /* a zigzag number */
    sums(&broken);
}

/* ---- fields */

static void limits_are_in_order(void) {
    test = "limits";
    /* two batches of 69 bytes fit into a segment; one of 79 is too large */
    const kp_limits limits = {.segment_bytes = 150, .index_interval = 4096, .max_batch = 78};
    world w;
    kp_receipt receipt;
    opens(&w, &limits);
    elects(&w);
    for (int i = 0; i < 3; i++)
        WANT(produces(&w, &one_record, &receipt), KP_DONE);
    WANT(produces(&w, &transaction, &receipt), 9);
    kp_handle segments = {0}, batches = {0};
    size_t count = 0;
    uint8_t name[KP_NAME_BYTES];
    WANT(kp_segments(&w.nodes[LEADER], &segments), KP_DONE);
    WANT(kp_count(&segments, &count), KP_DONE);
    WANT(count, 2);
    WANT(kp_segment(&segments, 1, name, sizeof name, &batches), KP_DONE);
    WANT(memcmp(name, "00000000000000000002.log", sizeof name), 0);
    WANT(kp_count(&batches, &count), KP_DONE);
    WANT(count, 1);
    WANT(kp_close(&batches), KP_DONE);
    WANT(kp_close(&segments), KP_DONE);
    closes(&w);
}

static void records_and_roles_are_in_order(void) {
    test = "records and roles";
    world w;
    kp_leadership_out leadership = {0};
    kp_role role = {0};
    kp_receipt receipt;
    opens(&w, &roomy);
    WANT(kp_elect(&w.pass, 1, &leadership), KP_DONE);
    elects(&w);
    WANT(kp_leadership(&w.pass, &leadership), KP_DONE);
    WANT(leadership.version, 2);
    WANT(leadership.epoch, 1);
    WANT(leadership.leader, LEADER);
    WANT(leadership.elected, true);
    for (int i = 0; i < 7; i++)
        WANT(leadership.in_sync[i], i < NODES);
    for (int i = 0; i < 5; i++)
        WANT(produces(&w, &one_record, &receipt), KP_DONE);
    WANT(kp_elect(&w.pass, LEADER, &leadership), KP_DONE);
    WANT(kp_adopt(&w.nodes[LEADER], &role), KP_DONE);
    WANT(role.start, 5);
    WANT(role.epoch, 2);
    WANT(role.leader, 0);
    WANT(role.leads, true);
    WANT(kp_adopt(&w.nodes[0], &role), KP_DONE);
    WANT(role.start, 0);
    WANT(role.epoch, 2);
    WANT(role.leader, LEADER);
    WANT(role.leads, false);
    closes(&w);
}

/* Producer 12's transaction is committed. */
static const kp_marker ends_12 = {.producer_id = 12, .timestamp = 1000, .coordinator_epoch = 3, .producer_epoch = 0, .commits = true};

static void receipts_are_in_order(void) {
    test = "receipts";
    world w;
    const kp_receipt before = {.base = 11, .last = 12, .place = 13, .epoch = 14, .duplicate = true};
    kp_receipt receipt = before;
    kp_handle handed = {0};
    kp_marker wrong_marker = ends_12;
    wrong_marker.producer_epoch = 40000;
    opens(&w, &roomy);
    elects(&w);
    for (int i = 0; i < 3; i++)
        WANT(produces(&w, &one_record, &receipt), KP_DONE);
    elects(&w);
    WANT(produces(&w, &transaction, &receipt), KP_DONE);
    wants_receipt(&receipt, 3, 4, 0, 1, false);
    WANT(kp_hand(&handed, transaction.bytes, transaction.size), KP_DONE);
    WANT(kp_produce_handed(&w.nodes[LEADER], &w.pass, &handed, &receipt), KP_DONE);
    wants_receipt(&receipt, 3, 4, 0, 1, true);
    /* after a refusal its place alone is written, and after a misuse nothing is */
    receipt = before;
    WANT(produces(&w, &broken, &receipt), 8);
    wants_receipt(&receipt, 11, 12, 61, 14, true);
    WANT(kp_produce_handed(&w.nodes[0], &w.pass, &handed, &receipt), 15);
    wants_receipt(&receipt, 11, 12, 0, 14, true);
    receipt = before;
    WANT(kp_mark(&w.nodes[0], &w.pass, &ends_12, &receipt), 15);
    wants_receipt(&receipt, 11, 12, 0, 14, true);
    receipt = before;
    WANT(kp_mark(&w.nodes[LEADER], &w.pass, &wrong_marker, &receipt), KP_OUT_OF_RANGE);
    WANT(kp_produce(&w.pass, &w.cluster, broken.bytes, broken.size, &receipt), KP_OTHER_KIND);
    wants_receipt(&receipt, 11, 12, 13, 14, true);
    WANT(kp_mark(&w.nodes[LEADER], &w.pass, &ends_12, &receipt), KP_DONE);
    wants_receipt(&receipt, 5, 5, 0, 1, false);
    WANT(kp_close(&handed), KP_DONE);
    closes(&w);
}

/* A producer's receipt, asked about by a caller of its own, who takes it over. */
static void receipts_go_from_pass_to_pass(void) {
    test = "receipts of others";
    world w;
    kp_handle other = {0};
    kp_receipt receipt;
    uint32_t ack = KP_LOST;
    opens(&w, &roomy);
    elects(&w);
    WANT(kp_open_pass(&w.cluster, &other), KP_DONE);
    WANT(produces(&w, &one_record, &receipt), KP_DONE);
    refuses = true;
    WANT(kp_tell_receipts(&w.pass, &other), KP_DONE);
    refuses = false;
    WANT(kp_acked(&w.nodes[LEADER], &other, &receipt, &ack), KP_DONE);
    WANT(ack, KP_NOT_YET);
    commits(&w, 1);
    WANT(kp_acked(&w.nodes[LEADER], &other, &receipt, &ack), KP_DONE);
    WANT(ack, KP_COMMITTED);
    WANT(kp_close(&other), KP_DONE);
    closes(&w);
}

/* The transaction stands at 3 and 4, behind three batches of no producer; its marker is at 5. */
static void reads_are_in_order(void) {
    test = "reads";
    world w;
    kp_receipt receipt;
    kp_marker earlier = ends_12;
    earlier.coordinator_epoch = 2;
    opens(&w, &roomy);
    elects(&w);
    for (int i = 0; i < 3; i++)
        WANT(produces(&w, &one_record, &receipt), KP_DONE);
    WANT(produces(&w, &transaction, &receipt), KP_DONE);
    WANT(kp_mark(&w.nodes[LEADER], &w.pass, &ends_12, &receipt), KP_DONE);
    WANT(kp_mark(&w.nodes[LEADER], &w.pass, &earlier, &receipt), 14);
    commits(&w, 6);
    kp_handle batches = {0}, records = {0};
    size_t count = 0;
    uint32_t size = 0;
    kp_committed_out found = {0};
    uint8_t value[5] = "....";
    WANT(kp_read(&w.nodes[LEADER], &w.pass, 1, &batches), KP_DONE);
    WANT(kp_count(&batches, &count), KP_DONE);
    WANT(count, 4);
    WANT(kp_batch_size(&batches, 2, &size), KP_DONE);
    WANT(size, transaction.size);
    WANT(kp_read_committed(&w.nodes[LEADER], &w.pass, 3, &records), KP_DONE);
    WANT(kp_committed(&records, 0, &found), KP_DONE);
    WANT(found.offset, 3);
    WANT(found.size, 4);
    WANT(found.null, false);
    WANT(kp_value(&records, 0, value, 4), KP_DONE);
    WANT(memcmp(value, "paid", 5), 0);
    WANT(kp_committed(&records, 1, &found), KP_DONE);
    WANT(found.offset, 4);
    WANT(found.size, 0);
    WANT(found.null, true);
    WANT(kp_close(&batches), KP_DONE);
    WANT(kp_close(&records), KP_DONE);
    closes(&w);
}

/* The transaction stands at 0 and 1, and is aborted at 3; a batch of no producer stands at 2, and behind it one that isn't committed. */
static void fetches_are_in_order(void) {
    test = "fetches";
    world w;
    kp_receipt receipt;
    kp_marker aborts_12 = ends_12;
    aborts_12.commits = false;
    kp_handle fetched = {0};
    kp_fetched_out found = {0};
    kp_aborted_out aborted = {0};
    size_t count = 0;
    uint32_t size = 0;
    uint8_t bytes[512];
    opens(&w, &roomy);
    elects(&w);
    WANT(produces(&w, &transaction, &receipt), KP_DONE);
    WANT(produces(&w, &one_record, &receipt), KP_DONE);
    WANT(kp_mark(&w.nodes[LEADER], &w.pass, &aborts_12, &receipt), KP_DONE);
    commits(&w, 4);
    WANT(produces(&w, &one_record, &receipt), KP_DONE);
    WANT(kp_fetch(&w.nodes[LEADER], &w.pass, 1, 1048576, true, &fetched), KP_DONE);
    WANT(kp_fetched(&fetched, &found), KP_DONE);
    WANT(found.watermark, 4);
    WANT(found.stable, 4);
    WANT(found.end, 5);
    WANT(found.aborted, 1);
    WANT(kp_aborted(&fetched, 0, &aborted), KP_DONE);
    WANT(aborted.producer_id, 12);
    WANT(aborted.first, 0);
    WANT(kp_aborted(&fetched, 1, &aborted), KP_OUT_OF_RANGE);
    WANT(kp_count(&fetched, &count), KP_DONE);
    WANT(count, 3);
    WANT(kp_batch_size(&fetched, 0, &size), KP_DONE);
    WANT(size, transaction.size);
    WANT(kp_batch(&fetched, 1, bytes, sizeof bytes), KP_DONE);
    WANT(bytes[7], 2);
    WANT(memcmp(bytes + 16, one_record.bytes + 16, one_record.size - 16), 0);
    WANT(kp_close(&fetched), KP_DONE);
    WANT(kp_fetch(&w.nodes[LEADER], &w.pass, 0, one_record.size, false, &fetched), KP_DONE);
    WANT(kp_fetched(&fetched, &found), KP_DONE);
    WANT(found.aborted, 0);
    WANT(kp_count(&fetched, &count), KP_DONE);
    WANT(count, 1);
    WANT(kp_close(&fetched), KP_DONE);
    closes(&w);
}

/* A transaction is open at 1 and 2; the next batch, in a leader epoch of its own, isn't committed. */
static void states_are_in_order(void) {
    test = "states";
    world w;
    kp_receipt receipt;
    kp_leadership_out leadership;
    kp_role role;
    kp_node_state state = {0};
    kp_epoch_end end = {0};
    kp_time_offset time = {0};
    uint64_t offset = 0;
    opens(&w, &roomy);
    WANT(kp_show(&w.nodes[0], &state), KP_DONE);
    WANT(state.status, KP_IS_IDLE);
    WANT(state.adopted, false);
    WANT(kp_elect(&w.pass, LEADER, &leadership), KP_DONE);
    elects(&w); /* in epoch 1 */
    WANT(produces(&w, &one_record, &receipt), KP_DONE);
    WANT(produces(&w, &transaction, &receipt), KP_DONE);
    commits(&w, 3);
    WANT(kp_checkpoint(&w.nodes[LEADER], &offset), KP_DONE);
    WANT(kp_elect(&w.pass, LEADER, &leadership), KP_DONE);
    WANT(kp_adopt(&w.nodes[LEADER], &role), KP_DONE);
    WANT(produces(&w, &one_record, &receipt), KP_DONE);
    WANT(kp_show(&w.nodes[LEADER], &state), KP_DONE);
    WANT(state.life, 0);
    WANT(state.end, 4);
    WANT(state.watermark, 3);
    WANT(state.stable, 1);
    WANT(state.checkpoint, 3);
    WANT(state.start, 3);
    WANT(state.kept_epoch, 2);
    WANT(state.epoch, 2);
    WANT(state.adopted, true);
    WANT(state.status, KP_LEADS);
    WANT(state.leader, 0);
    WANT(kp_show(&w.nodes[0], &state), KP_DONE);
    WANT(state.status, KP_FOLLOWS);
    WANT(state.leader, LEADER);
    WANT(state.epoch, 1);
    WANT(state.start, 0);
    WANT(kp_end_for(&w.nodes[LEADER], 1, &end), KP_DONE);
    WANT(end.found, true);
    WANT(end.epoch, 1);
    WANT(end.end, 3);
    WANT(kp_end_for(&w.nodes[LEADER], 0, &end), KP_DONE);
    WANT(end.found, false);
    WANT(kp_end_for(&w.nodes[0], 1, &end), 15);
    WANT(kp_offset_for_time(&w.nodes[LEADER], &w.pass, 0, true, &time), KP_DONE);
    WANT(time.found, true);
    WANT(time.offset, 0);
    WANT(time.timestamp, 1700000000000);
    WANT(kp_offset_for_time(&w.nodes[LEADER], &w.pass, UINT64_MAX, false, &time), KP_DONE);
    WANT(time.found, false);
    WANT(kp_stop(&w.nodes[LEADER]), KP_DONE);
    WANT(kp_show(&w.nodes[LEADER], &state), KP_DONE);
    WANT(state.status, KP_IS_DOWN);
    WANT(state.stable, 1);
    WANT(kp_end_for(&w.nodes[LEADER], 1, &end), 28);
    WANT(kp_offset_for_time(&w.nodes[LEADER], &w.pass, 0, true, &time), 28);
    closes(&w);
}

static void wants_head(kp_handle *batches, size_t index, uint64_t base, uint64_t producer, uint32_t sequence, uint16_t attributes) {
    kp_batch_head_out head = {0};
    WANT(kp_batch_head(batches, index, &head), KP_DONE);
    WANT(head.base, base);
    WANT(head.epoch, 0);
    WANT(head.producer_id, producer);
    WANT(head.base_sequence, sequence);
    WANT(head.attributes, attributes);
}

/* Producer 12's transaction stands at 0 and 1, its marker at 2, a second transaction of it at 3 and 4, a batch of no producer at 5; nothing
 * is committed. */
static void logs_are_described(void) {
    test = "descriptions";
    world w;
    kp_receipt receipt;
    kp_handle opened = {0}, batches = {0};
    kp_producer_out producer = {0};
    kp_open_transaction_out open = {0};
    kp_batch_head_out head = {0};
    batch second = transaction;
    size_t count = 0;
    opens(&w, &roomy);
    elects(&w);
    second.bytes[56] = 2; /* its sequence numbers go on */
    sums(&second);
    WANT(kp_producer(&w.nodes[LEADER], 12, &producer), KP_DONE);
    WANT(producer.found, false);
    WANT(producer.open_from, 0);
    WANT(produces(&w, &transaction, &receipt), KP_DONE);
    WANT(kp_producer(&w.nodes[LEADER], 12, &producer), KP_DONE);
    WANT(producer.found, true);
    WANT(producer.epoch, 0);
    WANT(producer.last_sequence, 1);
    WANT(producer.coordinator_epoch, UINT32_MAX);
    WANT(producer.open_from, 0);
    WANT(kp_mark(&w.nodes[LEADER], &w.pass, &ends_12, &receipt), KP_DONE);
    WANT(kp_producer(&w.nodes[LEADER], 12, &producer), KP_DONE);
    WANT(producer.coordinator_epoch, 3);
    WANT(producer.open_from, UINT64_MAX);
    WANT(produces(&w, &second, &receipt), KP_DONE);
    WANT(produces(&w, &one_record, &receipt), KP_DONE);
    WANT(kp_producer(&w.nodes[LEADER], 12, &producer), KP_DONE);
    WANT(producer.last_sequence, 3);
    WANT(producer.open_from, 3);
    WANT(kp_open_transactions(&w.nodes[LEADER], &opened), KP_DONE);
    WANT(kp_count(&opened, &count), KP_DONE);
    WANT(count, 1);
    WANT(kp_open_transaction(&opened, 0, &open), KP_DONE);
    WANT(open.producer_id, 12);
    WANT(open.first, 3);
    WANT(kp_open_transaction(&opened, 1, &open), KP_OUT_OF_RANGE);
    WANT(kp_log_from(&w.nodes[LEADER], 1, 1048576, &batches), KP_DONE);
    WANT(kp_count(&batches, &count), KP_DONE);
    WANT(count, 4);
    wants_head(&batches, 0, 0, 12, 0, 16);
    wants_head(&batches, 1, 2, 12, UINT32_MAX, 48);
    wants_head(&batches, 2, 3, 12, 2, 16);
    wants_head(&batches, 3, 5, UINT64_MAX, UINT32_MAX, 0);
    WANT(kp_batch_head(&batches, 0, &head), KP_DONE);
    WANT(head.count, 2);
    WANT(head.size, transaction.size);
    WANT(head.producer_epoch, 0);
    WANT(head.base_timestamp, 1000);
    WANT(head.max_timestamp, 1000);
    WANT(kp_batch_head(&batches, 3, &head), KP_DONE);
    WANT(head.producer_epoch, UINT16_MAX);
    WANT(head.base_timestamp, 1700000000000);
    WANT(kp_batch_head(&batches, 4, &head), KP_OUT_OF_RANGE);
    WANT(kp_close(&batches), KP_DONE);
    WANT(kp_log_from(&w.nodes[LEADER], 2, 1, &batches), KP_DONE);
    WANT(kp_count(&batches, &count), KP_DONE);
    WANT(count, 1);
    WANT(kp_close(&batches), KP_DONE);
    WANT(kp_log_from(&w.nodes[LEADER], 7, 1, &batches), 16);
    WANT(kp_stop(&w.nodes[LEADER]), KP_DONE);
    WANT(kp_log_from(&w.nodes[LEADER], 6, 1, &batches), KP_DONE);
    WANT(kp_count(&batches, &count), KP_DONE);
    WANT(count, 0);
    WANT(kp_close(&batches), KP_DONE);
    WANT(kp_close(&opened), KP_DONE);
    closes(&w);
}

/* What a batch of no producer behind the one of producer 12 is: whole, or faulty so. */
static void wants_found(const batch *behind, size_t size, uint32_t max_batch, uint32_t fault, uint64_t place) {
    kp_handle batches = {0};
    kp_batches_found found = {.size = 1, .place = 2, .fault = 3};
    uint8_t bytes[2 * sizeof behind->bytes];
    size_t count = 0;
    memcpy(bytes, transaction.bytes, transaction.size);
    memcpy(bytes + transaction.size, behind->bytes, size);
    WANT(kp_batches_in(bytes, transaction.size + size, max_batch, &batches, &found), KP_DONE);
    WANT(found.size, transaction.size + (fault == 0 ? size : 0));
    WANT(found.fault, fault);
    WANT(found.place, place);
    WANT(kp_count(&batches, &count), KP_DONE);
    WANT(count, fault == 0 && size > 0 ? 2 : 1);
    WANT(kp_close(&batches), KP_DONE);
}

static batch with(size_t place, uint8_t byte, bool is_summed) {
    batch changed = one_record;
    changed.bytes[place] = byte;
    if (is_summed)
        sums(&changed);
    return changed;
}

static void bytes_are_read_as_batches(void) {
    test = "bytes";
    const uint32_t most = UINT32_MAX;
    const size_t size = one_record.size;
    kp_handle batches = {0};
    kp_batches_found found = {0};
    kp_batch_head_out head = {0};
    uint8_t copy[sizeof one_record.bytes] = {0};
    batch stamped = with(7, 9, false), changed;
    wants_found(&one_record, 0, most, KP_DONE, 0);
    wants_found(&one_record, size, most, KP_DONE, 0);
    wants_found(&one_record, size, (uint32_t)transaction.size, KP_DONE, 0); /* which is the greater one */
    for (size_t i = 1; i < size; i++)
        wants_found(&one_record, i, most, KP_F1_TRUNCATED, 0);
    changed = with(16, 1, false);
    wants_found(&changed, size, most, KP_F2_BAD_MAGIC, 0);
    changed = with(11, 48, false);
    wants_found(&changed, size, most, KP_F3_BAD_LENGTH, 0);
    changed = with(size - 1, 1, false);
    wants_found(&changed, size, most, KP_F4_BAD_CRC, 0);
    changed = with(22, 1, true);
    wants_found(&changed, size, most, KP_F5_COMPRESSED, 0);
    changed = with(22, 8, true);
    wants_found(&changed, size, most, KP_F6_BAD_ATTRIBUTES, 0);
    changed = with(12, 1, false); /* the leader epoch is too great */
    wants_found(&changed, size, most, KP_F7_BAD_COUNT, 0);
    wants_found(&broken, size, most, KP_F8_BAD_RECORD, 61);
    changed = with(8, 1, false); /* it says that it has above 16,000,000 bytes */
    wants_found(&changed, size, (uint32_t)transaction.size, KP_F9_TOO_LARGE, 0);
    wants_found(&changed, size, most, KP_F1_TRUNCATED, 0);
    changed = with(43, 0, true); /* a producer, and no epoch */
    wants_found(&changed, size, most, KP_F10_BAD_PRODUCER_FIELDS, 0);
    WANT(kp_batches_in(transaction.bytes, transaction.size, (uint32_t)transaction.size - 1, &batches, &found), KP_DONE);
    WANT(found.size, 0);
    WANT(found.fault, KP_F9_TOO_LARGE);
    WANT(kp_close(&batches), KP_DONE);
    WANT(kp_batches_in(stamped.bytes, 0, most, &batches, &found), KP_DONE);
    WANT(found.size, 0);
    WANT(found.fault, KP_DONE);
    WANT(kp_batches_in(stamped.bytes, size, most, &batches, &found), KP_IN_USE);
    WANT(kp_close(&batches), KP_DONE);
    WANT(kp_batches_in(stamped.bytes, size, most, &batches, &found), KP_DONE);
    WANT(found.size, size);
    WANT(kp_batch_head(&batches, 0, &head), KP_DONE);
    WANT(head.base, 9);
    WANT(head.epoch, 0);
    WANT(head.count, 1);
    WANT(head.size, size);
    WANT(head.producer_id, UINT64_MAX);
    WANT(head.max_timestamp, 1700000000000);
    WANT(kp_batch(&batches, 0, copy, sizeof copy), KP_DONE);
    WANT(memcmp(copy, stamped.bytes, sizeof copy), 0);
    WANT(kp_close(&batches), KP_DONE);
    WANT(blocks, 0);
}

/* The vectors of docs/FORMATS.md, and the batches of clients. */
static void checksums_are_crc_32c(void) {
    test = "checksums";
    const batch *batches[] = {&one_record, &transaction, &keyed};
    const uint8_t zeros[32] = {0};
    WANT(kp_crc32c(zeros, 0), 0);
    WANT(kp_crc32c((const uint8_t *)"123456789", 9), 0xe3069283);
    WANT(kp_crc32c(zeros, sizeof zeros), 0x8a9136aa);
    for (size_t i = 0; i < sizeof batches / sizeof *batches; i++) {
        const uint8_t *sum = batches[i]->bytes + 17;
        WANT(kp_crc32c(sum + 4, batches[i]->size - 21), (uint32_t)sum[0] << 24 | (uint32_t)sum[1] << 16 | (uint32_t)sum[2] << 8 | sum[3]);
    }
    for (size_t length = 0; length <= keyed.size; length++)
        WANT(kp_crc32c(keyed.bytes, length), checksum(keyed.bytes, length));
}

static void wants_said(kp_handle *message, uint8_t kind, uint8_t sender, uint64_t offset, uint32_t epoch) {
    kp_said_out said = {0};
    WANT(kp_said(message, &said), KP_DONE);
    WANT(said.kind, kind);
    WANT(said.sender, sender);
    WANT(said.offset, offset);
    WANT(said.epoch, epoch);
}

/* A follower asks from 0 and then from 1; after an election its log and the new leader's diverge. */
static void messages_say_what_they_are(void) {
    test = "messages";
    world w;
    kp_receipt receipt;
    kp_handle message = {0};
    kp_known_out known = {0};
    kp_said_out said = {0};
    kp_leadership_out leadership = {0};
    kp_role role;
    opens(&w, &roomy);
    elects(&w);
    WANT(produces(&w, &one_record, &receipt), KP_DONE);
    WANT(kp_known(&w.nodes[0], &known), 15);
    WANT(kp_known(&w.nodes[LEADER], &known), KP_DONE);
    WANT(known.leadership.leader, LEADER);
    WANT(known.leadership.elected, true);
    WANT(known.leadership.in_sync[3], true);
    WANT(known.reported[0], UINT64_MAX);
    WANT(known.pending, false);
    WANT(known.proposed[0], false);
    WANT(kp_ask(&w.nodes[0], &message), KP_DONE);
    wants_said(&message, KP_ASKS_FROM, 0, 0, UINT32_MAX);
    WANT(kp_step(&w.nodes[LEADER], &message), KP_DONE);
    wants_said(&message, KP_BATCHES, LEADER, 0, 0);
    WANT(kp_said(&message, &said), KP_DONE);
    WANT(said.count, 1);
    WANT(said.watermark, 0);
    WANT(kp_step(&w.nodes[0], &message), KP_DONE);
    WANT(kp_ask(&w.nodes[0], &message), KP_DONE);
    wants_said(&message, KP_ASKS_FROM, 0, 1, 0);
    WANT(kp_step(&w.nodes[LEADER], &message), KP_DONE);
    WANT(kp_known(&w.nodes[LEADER], &known), KP_DONE);
    WANT(known.reported[0], 1);
    WANT(known.reported[1], UINT64_MAX);
    WANT(kp_close(&message), KP_DONE);
    WANT(kp_alter(&w.nodes[LEADER], false, 3, &message), KP_DONE);
    wants_said(&message, KP_PROPOSES, LEADER, 0, 0);
    WANT(kp_said(&message, &said), KP_DONE);
    WANT(said.version, 1);
    WANT(said.in_sync[3], false);
    WANT(said.in_sync[0], true);
    WANT(kp_known(&w.nodes[LEADER], &known), KP_DONE);
    WANT(known.pending, true);
    WANT(known.proposed[0], true);
    WANT(known.proposed[3], false);
    WANT(kp_decide(&w.pass, &message), KP_DONE);
    wants_said(&message, KP_DECIDES, KP_CONTROLLER, 0, 0);
    WANT(kp_said(&message, &said), KP_DONE);
    WANT(said.version, 2);
    WANT(said.in_sync[3], false);
    WANT(kp_close(&message), KP_DONE);
    WANT(kp_elect(&w.pass, 1, &leadership), KP_DONE);
    WANT(kp_adopt(&w.nodes[1], &role), KP_DONE);
    WANT(kp_adopt(&w.nodes[0], &role), KP_DONE);
    WANT(kp_ask(&w.nodes[0], &message), KP_DONE);
    WANT(kp_step(&w.nodes[1], &message), KP_DONE);
    wants_said(&message, KP_DIVERGING, 1, 0, UINT32_MAX);
    WANT(kp_close(&message), KP_DONE);
    closes(&w);
}

/* A message comes twice: the second asks for the same, and tells the leader nothing new. */
static void messages_come_twice(void) {
    test = "repeats";
    world w;
    kp_receipt receipt;
    kp_handle message = {0}, again = {0};
    kp_known_out known = {0};
    kp_said_out said = {0};
    uint8_t addressee = 0;
    opens(&w, &roomy);
    elects(&w);
    WANT(produces(&w, &one_record, &receipt), KP_DONE);
    WANT(kp_ask(&w.nodes[1], &message), KP_DONE);
    WANT(kp_repeat(&w.pass, &message, &again), KP_DONE);
    WANT(kp_addressee(&again, &addressee), KP_DONE);
    WANT(addressee, LEADER);
    wants_said(&again, KP_ASKS_FROM, 1, 0, UINT32_MAX);
    WANT(kp_step(&w.nodes[LEADER], &message), KP_DONE);
    WANT(kp_step(&w.nodes[1], &message), KP_DONE);
    WANT(kp_ask(&w.nodes[1], &message), KP_DONE);
    WANT(kp_step(&w.nodes[LEADER], &message), KP_DONE);
    WANT(kp_step(&w.nodes[LEADER], &again), KP_DONE); /* the older one comes last */
    WANT(kp_known(&w.nodes[LEADER], &known), KP_DONE);
    WANT(known.reported[1], 1);
    WANT(kp_said(&again, &said), KP_DONE);
    WANT(said.kind, KP_BATCHES);
    WANT(said.count, 1);
    WANT(kp_step(&w.nodes[1], &again), 29);
    WANT(kp_close(&message), KP_DONE);
    closes(&w);
}

static void wants_part(kp_handle *batches, const kp_record_place *place, size_t part, const char *bytes, size_t size) {
    kp_record_part_out found = {0};
    uint8_t to[16] = {0};
    WANT(kp_record_part(batches, place, part, &found), KP_DONE);
    WANT(found.null, bytes == NULL);
    WANT(found.size, size);
    WANT(kp_record_bytes(batches, place, part, to, sizeof to), KP_DONE);
    WANT(memcmp(to, bytes ? bytes : "", size), 0);
    WANT(to[size], 0);
    if (size > 0)
        WANT(kp_record_bytes(batches, place, part, to, size - 1), KP_BAD_LENGTH);
}

static void wants_record(const kp_record_out *found, uint64_t offset, uint64_t timestamp, uint64_t producer, bool shown) {
    WANT(found->offset, offset);
    WANT(found->timestamp, timestamp);
    WANT(found->producer_id, producer);
    WANT(found->shown, shown);
}

/* Producer 12's three records stand at 0 to 2, its transaction at 3 and 4, which the marker at 5 aborts, and a record of no producer at 6. */
static void records_have_parts(void) {
    test = "records";
    world w;
    kp_receipt receipt;
    kp_handle fetched = {0};
    kp_record_place place = {0};
    kp_record_out found[8] = {0};
    kp_marker aborts_12 = ends_12;
    batch second = transaction;
    aborts_12.commits = false;
    second.bytes[56] = 3; /* its sequence numbers go on */
    sums(&second);
    opens(&w, &roomy);
    elects(&w);
    WANT(produces(&w, &keyed, &receipt), KP_DONE);
    WANT(produces(&w, &second, &receipt), KP_DONE);
    WANT(kp_mark(&w.nodes[LEADER], &w.pass, &aborts_12, &receipt), KP_DONE);
    WANT(produces(&w, &one_record, &receipt), KP_DONE);
    commits(&w, 7);
    WANT(kp_fetch(&w.nodes[LEADER], &w.pass, 0, 1048576, true, &fetched), KP_DONE);
    for (int i = 0; i < 7; i++) {
        WANT(kp_record(&fetched, &place, &found[i]), KP_DONE);
        place = found[i].next;
    }
    WANT(kp_record(&fetched, &place, &found[7]), KP_OUT_OF_RANGE);
    WANT(kp_record_part(&fetched, &place, KP_KEY, &(kp_record_part_out){0}), KP_OUT_OF_RANGE);
    wants_record(&found[0], 0, 1000, 12, true);
    wants_record(&found[1], 1, 1005, 12, true);
    wants_record(&found[2], 2, 990, 12, true);
    wants_record(&found[3], 3, 1000, 12, false);
    wants_record(&found[4], 4, 1000, 12, false);
    wants_record(&found[5], 5, aborts_12.timestamp, 12, false);
    wants_record(&found[6], 6, 1700000000000, UINT64_MAX, true);
    WANT(found[0].producer_epoch, 0);
    WANT(found[6].producer_epoch, UINT16_MAX);
    place = (kp_record_place){0};
    wants_part(&fetched, &place, KP_KEY, "k", 1);
    wants_part(&fetched, &place, KP_VALUE, "v", 1);
    wants_part(&fetched, &place, KP_HEADERS, "trace", 5);
    wants_part(&fetched, &place, KP_HEADERS + 1, "\x01\x02", 2);
    wants_part(&fetched, &place, KP_HEADERS + 2, "none", 4);
    wants_part(&fetched, &place, KP_HEADERS + 3, NULL, 0);
    WANT(kp_record_part(&fetched, &place, KP_HEADERS + 4, &(kp_record_part_out){0}), KP_OUT_OF_RANGE);
    wants_part(&fetched, &found[0].next, KP_KEY, NULL, 0);
    wants_part(&fetched, &found[0].next, KP_VALUE, NULL, 0);
    wants_part(&fetched, &found[1].next, KP_KEY, "", 0);
    wants_part(&fetched, &found[1].next, KP_VALUE, "pay 7", 5);
    wants_part(&fetched, &found[1].next, KP_HEADERS, "\xc3\xa9", 2);
    wants_part(&fetched, &found[1].next, KP_HEADERS + 1, "", 0);
    WANT(kp_close(&fetched), KP_DONE);
    closes(&w);
}

static void restarts_are_in_order(void) {
    test = "restarts";
    world w;
    kp_receipt receipt;
    kp_restarted restarted = {0};
    uint64_t offset = 0;
    opens(&w, &roomy);
    elects(&w);
    for (int i = 0; i < 2; i++)
        WANT(produces(&w, &one_record, &receipt), KP_DONE);
    commits(&w, 2);
    WANT(kp_checkpoint(&w.nodes[LEADER], &offset), KP_DONE);
    WANT(offset, 2);
    WANT(produces(&w, &one_record, &receipt), KP_DONE);
    WANT(kp_stop(&w.nodes[LEADER]), KP_DONE);
    WANT(kp_restart(&w.nodes[LEADER], &restarted), KP_DONE);
    WANT(restarted.life, 1);
    WANT(restarted.end, 3);
    WANT(restarted.watermark, 2);
    closes(&w);
}

/* ---- changes of the in-sync replicas */

static void proposes(world *w, bool joins, uint8_t which) {
    kp_handle proposal = {0};
    kp_leadership_out leadership = {0};
    uint8_t addressee = 0;
    WANT(kp_alter(&w->nodes[LEADER], joins, which, &proposal), KP_DONE);
    WANT(kp_addressee(&proposal, &addressee), KP_DONE);
    WANT(addressee, KP_CONTROLLER);
    WANT(kp_decide(&w->pass, &proposal), KP_DONE);
    WANT(kp_addressee(&proposal, &addressee), KP_DONE);
    WANT(addressee, LEADER);
    WANT(kp_step(&w->nodes[LEADER], &proposal), KP_DONE);
    WANT(kp_leadership(&w->pass, &leadership), KP_DONE);
    for (int i = 0; i < NODES; i++)
        WANT(leadership.in_sync[i], joins || i != which);
}

static void proposals_are_what_was_asked_for(void) {
    test = "proposals";
    world w;
    opens(&w, &roomy);
    elects(&w);
    proposes(&w, false, 3);
    commits(&w, 0);
    proposes(&w, true, 3);
    proposes(&w, false, 1);
    closes(&w);
}

/* ---- the header's names of refusals */

#define NAMED(word) {#word, word}

static const struct {
    const char *word;
    uint32_t number;
} refusals[] = {
    NAMED(KP_F1_TRUNCATED),
    NAMED(KP_F2_BAD_MAGIC),
    NAMED(KP_F3_BAD_LENGTH),
    NAMED(KP_F4_BAD_CRC),
    NAMED(KP_F5_COMPRESSED),
    NAMED(KP_F6_BAD_ATTRIBUTES),
    NAMED(KP_F7_BAD_COUNT),
    NAMED(KP_F8_BAD_RECORD),
    NAMED(KP_F9_TOO_LARGE),
    NAMED(KP_F10_BAD_PRODUCER_FIELDS),
    NAMED(KP_F11_INVALID_PRODUCER_EPOCH),
    NAMED(KP_F12_OUT_OF_ORDER_SEQUENCE),
    NAMED(KP_F13_INVALID_TXN_STATE),
    NAMED(KP_F14_COORDINATOR_FENCED),
    NAMED(KP_F15_NOT_LEADER),
    NAMED(KP_F16_OFFSET_OUT_OF_RANGE),
    NAMED(KP_F17_FENCED_LEADER_EPOCH),
    NAMED(KP_F18_UNKNOWN_LEADER_EPOCH),
    NAMED(KP_F19_NOT_BOUNDARY),
    NAMED(KP_F20_BELOW_SETTLED),
    NAMED(KP_F21_NOT_IN_SYNC),
    NAMED(KP_F22_STALE_RECORD),
    NAMED(KP_F23_NOT_CAUGHT_UP),
    NAMED(KP_F24_RECORD_FULL),
    NAMED(KP_F25_OFFSETS_EXHAUSTED),
    NAMED(KP_F26_NOT_NEXT),
    NAMED(KP_F27_EPOCH_BACK),
    NAMED(KP_F28_DOWN),
    NAMED(KP_F29_STALE_ANSWER),
    NAMED(KP_F30_CONTROL_FROM_CLIENT),
    NAMED(KP_F31_BAD_SCRIPT),
    NAMED(KP_F32_DEVICE),
    NAMED(KP_F33_MEMORY),
    NAMED(KP_F34_CHANGE_PENDING),
    NAMED(KP_F35_BAD_FOLDER),
};

/* Writes the header's word for what kp_text says, as KP_F22_STALE_RECORD for "F22 StaleRecord". */
static void header_word(uint32_t number, char *word) {
    uint8_t text[64];
    const size_t length = kp_text(number, text, sizeof text);
    char *to = word + sprintf(word, "KP_");
    for (size_t i = 0; i < length; i++) {
        const bool begins = text[i] >= 'A' && text[i] <= 'Z';
        if (begins && i > 0 && text[i - 1] != ' ')
            *to++ = '_';
        *to++ = text[i] == ' ' ? '_' : text[i] >= 'a' && text[i] <= 'z' ? (char)(text[i] - 32) : (char)text[i];
    }
    *to = 0;
}

static void refusals_have_the_librarys_names(void) {
    test = "names of refusals";
    const uint32_t count = sizeof refusals / sizeof *refusals;
    char word[128];
    uint8_t text[64];
    WANT(count, 35);
    for (uint32_t i = 0; i < count; i++) {
        header_word(i + 1, word);
        WANT(refusals[i].number, i + 1);
        WANT(strcmp(refusals[i].word, word), 0);
    }
    WANT(kp_text(count + 1, text, sizeof text), 0);
    WANT(KP_MEMORY, KP_F33_MEMORY);
}

int main(int count, char **words) {
    const char *folder = count > 1 ? words[1] : ".";
    load(&one_record, folder, "one_record.batch");
    load(&transaction, folder, "transaction.batch");
    load(&keyed, folder, "keyed.batch");
    breaks_record();
    blocks = 0;
    limits_are_in_order();
    records_and_roles_are_in_order();
    receipts_are_in_order();
    receipts_go_from_pass_to_pass();
    reads_are_in_order();
    fetches_are_in_order();
    states_are_in_order();
    logs_are_described();
    bytes_are_read_as_batches();
    checksums_are_crc_32c();
    messages_say_what_they_are();
    messages_come_twice();
    records_have_parts();
    restarts_are_in_order();
    proposals_are_what_was_asked_for();
    refusals_have_the_librarys_names();
    printf("%d wrong\n", wrong);
    return wrong ? 1 : 0;
}
