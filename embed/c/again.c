/* Tests of what opens again what a process has left, by the C face: four nodes are stopped, kept, closed, read back and started again. Blocks
 * of memory are counted, and can be refused. The words are those of calls.c: the folder of the batches.
 */
#include "world.h"

enum { MOST = 4096 };

/* A node as a host keeps it: its log's bytes, and its state. */
typedef struct {
    uint8_t log[MOST];
    size_t size;
    kp_kept state;
} kept;

static void keeps(kp_handle *node, kept *to) {
    kp_handle batches = {0};
    kp_node_state state = {0};
    size_t count = 0;
    *to = (kept){0};
    WANT(kp_show(node, &state), KP_DONE);
    WANT(state.status, KP_IS_DOWN);
    to->state = (kp_kept){.checkpoint = state.checkpoint, .life = state.life, .kept_epoch = state.kept_epoch, .adopted = state.adopted};
    WANT(kp_log_from(node, 0, MOST, &batches), KP_DONE);
    WANT(kp_count(&batches, &count), KP_DONE);
    for (size_t i = 0; i < count; i++) {
        uint32_t size = 0;
        WANT(kp_batch_size(&batches, i, &size), KP_DONE);
        WANT(kp_batch(&batches, i, to->log + to->size, MOST - to->size), KP_DONE);
        to->size += size;
    }
    WANT(kp_close(&batches), KP_DONE);
}

/* Three batches, of which two are committed, and the leader's checkpoint is behind the first; then all is stopped and closed. */
static void leaves(kept nodes[NODES], kp_leadership_out *known) {
    world w;
    kp_receipt receipt;
    uint64_t offset = 0;
    opens(&w, &roomy);
    elects(&w);
    WANT(produces(&w, &one_record, &receipt), KP_DONE);
    commits(&w, 1);
    WANT(kp_checkpoint(&w.nodes[LEADER], &offset), KP_DONE);
    WANT(offset, 1);
    WANT(produces(&w, &one_record, &receipt), KP_DONE);
    commits(&w, 2);
    WANT(produces(&w, &one_record, &receipt), KP_DONE);
    WANT(kp_leadership(&w.pass, known), KP_DONE);
    for (int i = 0; i < NODES; i++) {
        WANT(kp_stop(&w.nodes[i]), KP_DONE);
        keeps(&w.nodes[i], &nodes[i]);
    }
    closes(&w);
}

static void wants_same(const kp_leadership_out *found, const kp_leadership_out *wanted) {
    WANT(found->version, wanted->version);
    WANT(found->epoch, wanted->epoch);
    WANT(found->leader, wanted->leader);
    WANT(found->elected, wanted->elected);
    for (int i = 0; i < 7; i++)
        WANT(found->in_sync[i], wanted->in_sync[i]);
}

static void reads_back(kept nodes[NODES], kp_handle *left) {
    WANT(kp_left(left, &roomy), KP_DONE);
    for (int i = 0; i < NODES; i++)
        WANT(kp_keep(left, nodes[i].log, nodes[i].size, &nodes[i].state), KP_DONE);
}

/* The nodes of an open cluster, each started again, in its second life. */
static void starts(world *w) {
    kp_restarted restarted = {0};
    for (int i = 0; i < NODES; i++) {
        WANT(kp_open_node(&w->cluster, &w->nodes[i]), KP_DONE);
        WANT(kp_restart(&w->nodes[i], &restarted), KP_DONE);
        WANT(restarted.life, 2);
        WANT(restarted.end, i == LEADER ? 3 : 2);
        WANT(restarted.watermark, i == LEADER ? 1 : 0);
    }
    WANT(kp_open_node(&w->cluster, &(kp_handle){0}), KP_OUT_OF_RANGE);
    WANT(kp_open_pass(&w->cluster, &w->pass), KP_DONE);
}

static void nodes_go_on_from_what_was_left(void) {
    test = "again";
    static kept nodes[NODES];
    kp_leadership_out known = {0}, next = {0}, found = {0};
    kp_handle left = {0};
    kp_handle read = {0};
    kp_role role;
    kp_receipt receipt;
    size_t count = 0;
    world w = {0};
    leaves(nodes, &known);
    reads_back(nodes, &left);
    WANT(kp_open_again(&left, &known, &(kp_promise){.offset = 2, .node = LEADER}, &w.cluster), KP_DONE);
    WANT(left.state, 0);
    starts(&w);
    WANT(kp_recall(&w.pass), KP_DONE);
    WANT(kp_leadership(&w.pass, &found), KP_DONE);
    wants_same(&found, &known);
    WANT(kp_elected(&known, LEADER, &next), KP_DONE);
    WANT(kp_elect(&w.pass, LEADER, &found), KP_DONE);
    wants_same(&found, &next);
    WANT(found.epoch, known.epoch + 1);
    WANT(found.version, known.version + 1);
    for (int i = 0; i < NODES; i++)
        WANT(kp_adopt(&w.nodes[i], &role), KP_DONE);
    WANT(role.epoch, next.epoch);
    WANT(produces(&w, &one_record, &receipt), KP_DONE);
    WANT(receipt.base, 3);
    commits(&w, 4);
    WANT(kp_read(&w.nodes[LEADER], &w.pass, 0, &read), KP_DONE);
    WANT(kp_count(&read, &count), KP_DONE);
    WANT(count, 4);
    WANT(kp_close(&read), KP_DONE);
    closes(&w);
}

static void decisions_are_told_before(void) {
    test = "decisions";
    world w;
    kp_handle proposal = {0};
    kp_leadership_out known = {0}, next = {0}, found = {0};
    opens(&w, &roomy);
    elects(&w);
    WANT(kp_leadership(&w.pass, &known), KP_DONE);
    WANT(kp_decided(&proposal, &known, &next), KP_CLOSED);
    WANT(kp_decided(&w.pass, &known, &next), KP_OTHER_KIND);
    WANT(kp_alter(&w.nodes[LEADER], false, 3, &proposal), KP_DONE);
    WANT(kp_decided(&proposal, &known, &next), KP_DONE);
    WANT(next.in_sync[3], false);
    WANT(next.version, known.version + 1);
    WANT(kp_decide(&w.pass, &proposal), KP_DONE);
    WANT(kp_leadership(&w.pass, &found), KP_DONE);
    wants_same(&found, &next);
    WANT(kp_decided(&proposal, &known, &next), KP_OTHER_KIND);
    WANT(kp_close(&proposal), KP_DONE);
    WANT(kp_elected(&known, 6, &next), KP_F21_NOT_IN_SYNC);
    known.version = 1u << 28;
    WANT(kp_elected(&known, LEADER, &next), KP_OUT_OF_RANGE);
    wants_same(&found, &next);
    closes(&w);
}

/* Whatever is wrong with a log or a state is told, and the place is as it was. */
static void what_is_no_log_is_refused(void) {
    test = "no logs";
    static kept nodes[NODES], changed;
    kp_leadership_out known = {0};
    kp_handle left = {0};
    leaves(nodes, &known);
    WANT(kp_keep(&left, nodes[0].log, nodes[0].size, &nodes[0].state), KP_CLOSED);
    WANT(kp_left(&left, &roomy), KP_DONE);
    WANT(kp_left(&left, &roomy), KP_IN_USE);
    changed = nodes[LEADER];
    WANT(kp_keep(&left, changed.log, changed.size - 1, &changed.state), KP_F1_TRUNCATED);
    changed.log[changed.size - 1] ^= 1;
    WANT(kp_keep(&left, changed.log, changed.size, &changed.state), KP_F4_BAD_CRC);
    changed = nodes[LEADER];
    changed.state.checkpoint = 4;
    WANT(kp_keep(&left, changed.log, changed.size, &changed.state), KP_F19_NOT_BOUNDARY);
    changed.state.life = UINT64_MAX;
    WANT(kp_keep(&left, changed.log, changed.size, &changed.state), KP_F24_RECORD_FULL);
    changed = nodes[LEADER];
    WANT(kp_keep(&left, changed.log + changed.size / 3, changed.size - changed.size / 3, &changed.state), KP_F26_NOT_NEXT);
    refuses = true;
    WANT(kp_keep(&left, changed.log, changed.size, &changed.state), KP_F33_MEMORY);
    refuses = false;
    for (int i = 0; i < 7; i++)
        WANT(kp_keep(&left, changed.log, changed.size, &changed.state), KP_DONE);
    WANT(kp_keep(&left, changed.log, changed.size, &changed.state), KP_OUT_OF_RANGE);
    WANT(kp_close(&left), KP_DONE);
    WANT(blocks, 0);
}

static void what_cannot_be_opened_stays(void) {
    test = "not opened";
    static kept nodes[NODES];
    kp_leadership_out known = {0}, none = {0};
    kp_promise nothing = {0};
    kp_handle left = {0}, other = {0}, cluster = {0};
    leaves(nodes, &known);
    WANT(kp_open_again(&left, &known, &nothing, &cluster), KP_CLOSED);
    reads_back(nodes, &left);
    WANT(kp_left(&other, &roomy), KP_DONE);
    WANT(kp_open_again(&left, &known, &nothing, &other), KP_IN_USE);
    WANT(kp_close(&other), KP_DONE);
    none.leader = 1;
    WANT(kp_open_again(&left, &none, &nothing, &cluster), KP_OUT_OF_RANGE);
    WANT(kp_open_node(&left, &cluster), KP_OTHER_KIND);
    refuses = true;
    WANT(kp_open_again(&left, &known, &nothing, &cluster), KP_F33_MEMORY);
    refuses = false;
    WANT(left.state, 0);
    WANT(cluster.state, 0);
    WANT(blocks, 0);
}

int main(int count, char **words) {
    const char *folder = count > 1 ? words[1] : ".";
    load(&one_record, folder, "one_record.batch");
    blocks = 0;
    nodes_go_on_from_what_was_left();
    decisions_are_told_before();
    what_is_no_log_is_refused();
    what_cannot_be_opened_stays();
    printf("%d wrong\n", wrong);
    return wrong ? 1 : 0;
}
