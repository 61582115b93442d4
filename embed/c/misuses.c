/* A test of the C face: each misuse by its number, whether there is memory or not, and want of room where nothing else is wrong.
 * `tools/embed gate` builds and runs it, as calls.c.
 */
#include "world.h"

static void wants_opening_misuses(world *w) {
    kp_handle closed = {0};
    WANT(kp_open(&closed, 8, &roomy), KP_OUT_OF_RANGE);
    WANT(kp_open(&w->pass, 2, &roomy), KP_IN_USE);
    WANT(kp_open_node(&w->cluster, &closed), KP_OUT_OF_RANGE); /* all are open */
    WANT(kp_open_node(&w->pass, &closed), KP_OTHER_KIND);
    WANT(kp_open_node(&w->cluster, &w->pass), KP_IN_USE);
    WANT(kp_open_pass(&w->nodes[0], &closed), KP_OTHER_KIND);
    WANT(kp_open_pass(&w->cluster, &w->pass), KP_IN_USE);
    WANT(kp_close(&closed), KP_CLOSED);
    kp_handle other = {0};
    WANT(kp_open_node(&closed, &other), KP_CLOSED);
    WANT(kp_open_pass(&closed, &other), KP_CLOSED);
}

static void wants_pair_misuses(world *w, kp_handle *node) {
    kp_handle closed = {0}, other = {0};
    kp_receipt receipt;
    WANT(kp_produce(&closed, &w->pass, one_record.bytes, one_record.size, &receipt), KP_CLOSED);
    WANT(kp_produce(node, &closed, one_record.bytes, one_record.size, &receipt), KP_CLOSED);
    WANT(kp_produce(&w->cluster, &w->pass, one_record.bytes, one_record.size, &receipt), KP_OTHER_KIND);
    WANT(kp_produce_handed(node, &w->pass, &closed, &receipt), KP_CLOSED);
    WANT(kp_produce_handed(node, &w->pass, &w->cluster, &receipt), KP_OTHER_KIND);
    WANT(kp_read(&closed, &w->pass, 0, &other), KP_CLOSED);
    WANT(kp_read(&w->cluster, &w->pass, 0, &closed), KP_OTHER_KIND);
    WANT(kp_read(node, &w->pass, 0, &w->cluster), KP_IN_USE);
    WANT(kp_read_committed(node, &closed, 0, &other), KP_CLOSED);
    WANT(kp_read_committed(&w->cluster, &w->pass, 0, &closed), KP_OTHER_KIND);
    WANT(kp_read_committed(node, &w->cluster, 0, &closed), KP_OTHER_KIND);
    WANT(kp_read_committed(node, &w->pass, 0, &w->cluster), KP_IN_USE);
    WANT(kp_fetch(node, &closed, 0, 1, true, &other), KP_CLOSED);
    WANT(kp_fetch(node, &w->cluster, 0, 1, true, &closed), KP_OTHER_KIND);
    WANT(kp_fetch(node, &w->pass, 0, 1, true, &w->cluster), KP_IN_USE);
    kp_fetched_out found;
    kp_aborted_out aborted;
    WANT(kp_fetched(&closed, &found), KP_CLOSED);
    WANT(kp_fetched(node, &found), KP_OTHER_KIND);
    WANT(kp_aborted(&closed, 0, &aborted), KP_CLOSED);
    WANT(kp_aborted(node, 0, &aborted), KP_OTHER_KIND);
    kp_node_state state;
    kp_epoch_end end;
    kp_time_offset time;
    WANT(kp_show(&closed, &state), KP_CLOSED);
    WANT(kp_show(&w->pass, &state), KP_OTHER_KIND);
    WANT(kp_end_for(&closed, 0, &end), KP_CLOSED);
    WANT(kp_end_for(&w->pass, 0, &end), KP_OTHER_KIND);
    WANT(kp_offset_for_time(node, &closed, 0, true, &time), KP_CLOSED);
    WANT(kp_offset_for_time(node, &w->cluster, 0, true, &time), KP_OTHER_KIND);
}

static void wants_description_misuses(world *w, kp_handle *node) {
    kp_handle closed = {0}, other = {0};
    kp_known_out known;
    kp_producer_out producer;
    kp_open_transaction_out open;
    kp_batch_head_out head;
    kp_said_out said;
    WANT(kp_known(&closed, &known), KP_CLOSED);
    WANT(kp_known(&w->pass, &known), KP_OTHER_KIND);
    WANT(kp_producer(&closed, 0, &producer), KP_CLOSED);
    WANT(kp_producer(&w->pass, 0, &producer), KP_OTHER_KIND);
    WANT(kp_open_transactions(&closed, &other), KP_CLOSED);
    WANT(kp_open_transactions(&w->pass, &closed), KP_OTHER_KIND);
    WANT(kp_open_transactions(node, &w->pass), KP_IN_USE);
    WANT(kp_log_from(&closed, 0, 1, &other), KP_CLOSED);
    WANT(kp_log_from(&w->pass, 0, 1, &closed), KP_OTHER_KIND);
    WANT(kp_log_from(node, 0, 1, &w->pass), KP_IN_USE);
    WANT(kp_open_transaction(&closed, 0, &open), KP_CLOSED);
    WANT(kp_open_transaction(node, 0, &open), KP_OTHER_KIND);
    WANT(kp_batch_head(&closed, 0, &head), KP_CLOSED);
    WANT(kp_batch_head(node, 0, &head), KP_OTHER_KIND);
    WANT(kp_said(&closed, &said), KP_CLOSED);
    WANT(kp_said(node, &said), KP_OTHER_KIND);
}

static void wants_record_misuses(world *w, kp_handle *node, kp_handle *message) {
    kp_handle closed = {0}, other = {0};
    kp_record_place place = {0};
    kp_record_out found;
    kp_record_part_out part;
    uint8_t byte;
    WANT(kp_record(&closed, &place, &found), KP_CLOSED);
    WANT(kp_record(node, &place, &found), KP_OTHER_KIND);
    WANT(kp_record_part(&closed, &place, KP_KEY, &part), KP_CLOSED);
    WANT(kp_record_part(node, &place, KP_KEY, &part), KP_OTHER_KIND);
    WANT(kp_record_bytes(&closed, &place, KP_KEY, &byte, 1), KP_CLOSED);
    WANT(kp_record_bytes(node, &place, KP_KEY, &byte, 1), KP_OTHER_KIND);
    WANT(kp_repeat(&closed, &w->pass, &other), KP_CLOSED);
    WANT(kp_repeat(&w->pass, &closed, &other), KP_CLOSED);
    WANT(kp_repeat(&w->pass, node, &closed), KP_OTHER_KIND);
    WANT(kp_repeat(&w->pass, message, &w->cluster), KP_IN_USE);
    WANT(kp_close(&closed), KP_CLOSED);
    WANT(kp_close(&other), KP_CLOSED);
}

static void wants_again_misuses(world *w, kp_handle *node, kp_handle *message) {
    kp_handle closed = {0}, other = {0};
    kp_kept kept = {0};
    kp_promise nothing = {0};
    kp_leadership_out known = {0}, none = {.leader = 1}, next;
    kp_batches_found found;
    WANT(kp_batches_in(one_record.bytes, one_record.size, 1, &w->pass, &found), KP_IN_USE);
    WANT(kp_left(&w->pass, &roomy), KP_IN_USE);
    WANT(kp_keep(&closed, one_record.bytes, one_record.size, &kept), KP_CLOSED);
    WANT(kp_keep(node, one_record.bytes, one_record.size, &kept), KP_OTHER_KIND);
    WANT(kp_open_again(&closed, &known, &nothing, &other), KP_CLOSED);
    WANT(kp_open_again(node, &known, &nothing, &other), KP_OTHER_KIND);
    WANT(kp_open_again(node, &none, &nothing, &other), KP_OUT_OF_RANGE);
    WANT(kp_open_again(node, &known, &nothing, &w->cluster), KP_IN_USE);
    WANT(kp_recall(&closed), KP_CLOSED);
    WANT(kp_recall(&w->cluster), KP_OTHER_KIND);
    WANT(kp_elected(&none, 0, &next), KP_OUT_OF_RANGE);
    WANT(kp_decided(&closed, &known, &next), KP_CLOSED);
    WANT(kp_decided(node, &known, &next), KP_OTHER_KIND);
    WANT(kp_decided(message, &known, &next), KP_OTHER_KIND); /* a request */
    WANT(kp_decided(message, &none, &next), KP_OUT_OF_RANGE);
    WANT(kp_close(&closed), KP_CLOSED);
    WANT(kp_close(&other), KP_CLOSED);
}

static void wants_receipts_misuses(world *w, kp_handle *node) {
    kp_handle closed = {0};
    WANT(kp_tell_receipts(&closed, &w->pass), KP_CLOSED);
    WANT(kp_tell_receipts(&w->pass, &closed), KP_CLOSED);
    WANT(kp_tell_receipts(node, &w->pass), KP_OTHER_KIND);
    WANT(kp_tell_receipts(&w->pass, node), KP_OTHER_KIND);
    WANT(kp_close(&closed), KP_CLOSED);
}

static void wants_node_misuses(world *w, kp_handle *node, kp_handle *segments) {
    kp_handle closed = {0}, other = {0};
    uint8_t name[KP_NAME_BYTES];
    WANT(kp_ask(&closed, &other), KP_CLOSED);
    WANT(kp_ask(&w->pass, &closed), KP_OTHER_KIND);
    WANT(kp_alter(node, true, 0, &w->pass), KP_IN_USE);
    WANT(kp_segments(&closed, &other), KP_CLOSED);
    WANT(kp_segments(&w->pass, &closed), KP_OTHER_KIND);
    WANT(kp_segments(node, &w->pass), KP_IN_USE);
    WANT(kp_segment(&closed, 0, name, sizeof name, &other), KP_CLOSED);
    WANT(kp_segment(&w->pass, 0, name, sizeof name, &closed), KP_OTHER_KIND);
    WANT(kp_segment(segments, 0, name, sizeof name, &w->pass), KP_IN_USE);
    WANT(kp_segment(segments, 1, name, sizeof name, &closed), KP_OUT_OF_RANGE);
    WANT(kp_hand(&w->pass, one_record.bytes, one_record.size), KP_IN_USE);
}

/* With no memory each call that has nothing else against it says so. A length is tested before a byte of it is read. */
static void wants_no_room(world *w, kp_handle *node, kp_handle *handed, kp_handle *message) {
    const size_t most = 2147483659;
    kp_handle closed = {0};
    kp_receipt receipt = {.base = 1, .last = 2, .place = 3, .epoch = 4, .duplicate = true};
    kp_batches_found found;
    WANT(kp_open(&closed, 7, &roomy), KP_NO_ROOM);
    WANT(kp_batches_in(one_record.bytes, one_record.size, 1, &closed, &found), KP_NO_ROOM);
    WANT(kp_open_pass(&w->cluster, &closed), KP_NO_ROOM);
    WANT(kp_left(&closed, &roomy), KP_NO_ROOM);
    WANT(kp_read(node, &w->pass, 0, &closed), KP_NO_ROOM);
    WANT(kp_read_committed(node, &w->pass, 0, &closed), KP_NO_ROOM);
    WANT(kp_fetch(node, &w->pass, 0, 1, true, &closed), KP_NO_ROOM);
    WANT(kp_open_transactions(node, &closed), KP_NO_ROOM);
    WANT(kp_log_from(node, 0, 1, &closed), KP_NO_ROOM);
    WANT(kp_segments(node, &closed), KP_NO_ROOM);
    WANT(kp_ask(node, &closed), KP_NO_ROOM);
    WANT(kp_repeat(&w->pass, message, &closed), KP_NO_ROOM);
    WANT(kp_hand(&closed, one_record.bytes, most), KP_NO_ROOM);
    WANT(kp_hand(&closed, one_record.bytes, most + 1), KP_BAD_LENGTH);
    WANT(kp_hand(handed, one_record.bytes, most), KP_NO_ROOM);
    WANT(kp_hand(handed, one_record.bytes, most + 1), KP_BAD_LENGTH);
    WANT(kp_produce(node, &w->pass, one_record.bytes, most, &receipt), KP_NO_ROOM);
    WANT(kp_produce(node, &w->pass, one_record.bytes, most + 1, &receipt), KP_BAD_LENGTH);
    WANT(kp_close(&closed), KP_CLOSED);
    wants_receipt(&receipt, 1, 2, 3, 4, true);
}

/* Also the refusals of a read: of a node that is down, and above its log's end. */
static void wants_read_refusals(world *w) {
    kp_handle closed = {0};
    WANT(kp_read(&w->nodes[LEADER], &w->pass, 2, &closed), 16);
    WANT(kp_read_committed(&w->nodes[LEADER], &w->pass, 2, &closed), 16);
    WANT(kp_fetch(&w->nodes[LEADER], &w->pass, 2, 1, true, &closed), 16);
    WANT(kp_read(&w->nodes[0], &w->pass, 0, &closed), 28);
    WANT(kp_read_committed(&w->nodes[0], &w->pass, 0, &closed), 28);
    WANT(kp_fetch(&w->nodes[0], &w->pass, 0, 1, true, &closed), 28);
    WANT(kp_close(&closed), KP_CLOSED);
}

static void misuses_have_their_numbers(void) {
    test = "misuses";
    world w;
    kp_receipt receipt;
    kp_handle handed = {0}, segments = {0}, message = {0};
    opens(&w, &roomy);
    elects(&w);
    WANT(produces(&w, &one_record, &receipt), KP_DONE);
    WANT(kp_stop(&w.nodes[0]), KP_DONE);
    WANT(kp_hand(&handed, one_record.bytes, one_record.size), KP_DONE);
    WANT(kp_segments(&w.nodes[LEADER], &segments), KP_DONE);
    WANT(kp_ask(&w.nodes[1], &message), KP_DONE);
    const long held = blocks;
    for (int round = 0; round < 2; round++) {
        refuses = round == 1;
        wants_opening_misuses(&w);
        wants_pair_misuses(&w, &w.nodes[LEADER]);
        wants_description_misuses(&w, &w.nodes[LEADER]);
        wants_record_misuses(&w, &w.nodes[LEADER], &message);
        wants_again_misuses(&w, &w.nodes[LEADER], &message);
        wants_receipts_misuses(&w, &w.nodes[LEADER]);
        wants_node_misuses(&w, &w.nodes[LEADER], &segments);
        WANT(blocks, held);
    }
    wants_no_room(&w, &w.nodes[1], &handed, &message);
    WANT(blocks, held);
    refuses = false;
    wants_read_refusals(&w);
    WANT(blocks, held);
    WANT(kp_close(&handed), KP_DONE);
    WANT(kp_close(&segments), KP_DONE);
    WANT(kp_close(&message), KP_DONE);
    closes(&w);
}

int main(int count, char **words) {
    const char *folder = count > 1 ? words[1] : ".";
    load(&one_record, folder, "one_record.batch");
    blocks = 0;
    misuses_have_their_numbers();
    printf("%d wrong\n", wrong);
    return wrong ? 1 : 0;
}
