/* What the tests of the C face share: memory that is counted, and can be refused; batches from files; four nodes, of which one leads. Only
 * the library takes memory, so the blocks are its own.
 */
#ifndef WORLD_H
#define WORLD_H

#include "kpart.h"

#include <stdio.h>
#include <stdlib.h>
#include <string.h>

/* ---- memory: how many blocks the library has, and whether it gets any more */

static long blocks;
static bool refuses;

void *__real_malloc(size_t size);
void *__real_realloc(void *block, size_t size);
void __real_free(void *block);
void *__wrap_malloc(size_t size);
void *__wrap_realloc(void *block, size_t size);
void __wrap_free(void *block);

void *__wrap_malloc(size_t size) {
    void *found = refuses ? NULL : __real_malloc(size);
    blocks += found != NULL;
    return found;
}

void *__wrap_realloc(void *block, size_t size) {
    void *found = refuses ? NULL : __real_realloc(block, size);
    blocks += block == NULL && found != NULL;
    return found;
}

void __wrap_free(void *block) {
    blocks -= block != NULL;
    __real_free(block);
}

/* ---- what is wanted */

static const char *test;
static int wrong;

static inline void wanted_at(int line, const char *what, unsigned long found, unsigned long wanted) {
    if (found != wanted) {
        printf("%s, line %d: %s is %lu, wanted %lu\n", test, line, what, found, wanted);
        wrong++;
    }
}

#define WANT(found, wanted) wanted_at(__LINE__, #found, (unsigned long)(found), (unsigned long)(wanted))

/* ---- batches */

typedef struct {
    uint8_t bytes[128];
    size_t size;
} batch;

static batch one_record;

static inline void load(batch *to, const char *folder, const char *name) {
    char path[1024];
    snprintf(path, sizeof path, "%s/%s", folder, name);
    FILE *file = fopen(path, "rb");
    if (!file) {
        printf("%s isn't there\n", path);
        exit(2);
    }
    to->size = fread(to->bytes, 1, sizeof to->bytes, file);
    fclose(file);
}

/* ---- four nodes, of which node 2 leads: no bool has these numbers */

enum { NODES = 4, LEADER = 2 };

typedef struct {
    kp_handle cluster, nodes[NODES], pass;
} world;

static inline void opens(world *w, const kp_limits *limits) {
    *w = (world){0};
    WANT(kp_open(&w->cluster, NODES, limits), KP_DONE);
    for (int i = 0; i < NODES; i++)
        WANT(kp_open_node(&w->cluster, &w->nodes[i]), KP_DONE);
    WANT(kp_open_pass(&w->cluster, &w->pass), KP_DONE);
}

static inline void closes(world *w) {
    WANT(kp_close(&w->cluster), KP_DONE);
    for (int i = 0; i < NODES; i++)
        WANT(kp_close(&w->nodes[i]), KP_DONE);
    WANT(kp_close(&w->pass), KP_DONE);
    WANT(blocks, 0);
}

static inline void elects(world *w) {
    kp_leadership_out leadership;
    kp_role role;
    WANT(kp_elect(&w->pass, LEADER, &leadership), KP_DONE);
    for (int i = 0; i < NODES; i++)
        WANT(kp_adopt(&w->nodes[i], &role), KP_DONE);
}

static inline uint32_t produces(world *w, const batch *bytes, kp_receipt *receipt) {
    return kp_produce(&w->nodes[LEADER], &w->pass, bytes->bytes, bytes->size, receipt);
}

/* Each follower fetches, and tells that it has what it fetched; then the high watermark rises to the log's end. */
static inline void commits(world *w, uint64_t end) {
    uint64_t offset = 0;
    for (int round = 0; round < 2; round++)
        for (int i = 0; i < NODES; i++) {
            kp_handle message = {0};
            if (i == LEADER)
                continue;
            WANT(kp_ask(&w->nodes[i], &message), KP_DONE);
            WANT(kp_step(&w->nodes[LEADER], &message), KP_DONE);
            WANT(kp_step(&w->nodes[i], &message), KP_DONE);
            WANT(kp_close(&message), KP_CLOSED);
        }
    WANT(kp_raise(&w->nodes[LEADER], &offset), KP_DONE);
    WANT(offset, end);
}

static const kp_limits roomy = {.segment_bytes = 1 << 20, .index_interval = 4096, .max_batch = 1 << 16};

static inline void wants_receipt(const kp_receipt *found, uint64_t base, uint64_t last, uint64_t place, uint32_t epoch, bool duplicate) {
    WANT(found->base, base);
    WANT(found->last, last);
    WANT(found->place, place);
    WANT(found->epoch, epoch);
    WANT(found->duplicate, duplicate);
}

#endif
