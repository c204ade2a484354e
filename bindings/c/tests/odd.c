/* Odd uses, each with what must come of it. Prints how many there are. */
#include "txc.h"
#include <stdio.h>
#include <stdlib.h>
#include <string.h>

static int uses, wrong;

static void check(bool is_so, const char *use, int line) {
    uses++;
    if (!is_so) {
        wrong++;
        printf("odd.c:%d: %s\n", line, use);
    }
}

#define CHECK(use) check((use), #use, __LINE__)

static const txc_reach STILL = {0, 0, true};
static const txc_key KEY = {1, 1, {2}};

static uint8_t value[TXC_MAX_VALUE_LEN + 1];
static txc_reach reach;
static txc_stored stored;
static txc_counts counts;
static size_t len, closed, swept;
static uint32_t processed;

static uint32_t look(txc_node *node, const txc_key *key, size_t room) {
    return txc_node_lookup(node, key, 0, 9, &reach, value, room, &len);
}

static uint32_t keep(txc_node *node, const txc_key *key, const txc_tag *tags, size_t count, size_t bytes) {
    return txc_node_insert(node, key, &STILL, tags, count, value, bytes, &stored);
}

/* Each call on a handle that has no node. */
static void try_closed(txc_node *node) {
    len = closed = swept = processed = 77;
    CHECK(look(node, &KEY, 8) == TXC_CLOSED && len == 77);
    CHECK(keep(node, &KEY, NULL, 0, 1) == TXC_CLOSED);
    CHECK(txc_node_event(node, 1, NULL, 0, &closed, &processed) == TXC_CLOSED && closed == 77 && processed == 77);
    CHECK(txc_node_sweep(node, 1, &swept) == TXC_CLOSED && swept == 77);
    CHECK(txc_node_count(node, 1, &counts) == TXC_CLOSED);
    CHECK(txc_node_close(node) == TXC_CLOSED && !node->is_open);
}

static void try_opening(txc_node *node) {
    CHECK(txc_node_open(node, 0, 4) == TXC_BAD_ARGUMENT && !node->is_open);
    CHECK(txc_node_open(node, TXC_MAX_CAPACITY + 1, 4) == TXC_BAD_ARGUMENT);
    CHECK(txc_node_open(node, 4, 0) == TXC_BAD_ARGUMENT);
    CHECK(txc_node_open(node, 4, TXC_MAX_RECENT + 1) == TXC_BAD_ARGUMENT);
    CHECK(txc_node_open(node, SIZE_MAX, SIZE_MAX) == TXC_BAD_ARGUMENT && !node->is_open);
    CHECK(txc_node_open(node, TXC_MAX_CAPACITY, TXC_MAX_RECENT) == TXC_DONE && txc_node_close(node) == TXC_DONE);
    CHECK(txc_node_open(node, 2, 2) == TXC_DONE && node->is_open);
}

static void try_second_opening(txc_node *node) {
    void *slot = node->slot;
    CHECK(keep(node, &KEY, NULL, 0, 1) == TXC_DONE);
    CHECK(txc_node_open(node, 4, 4) == TXC_ALREADY_OPEN && node->slot == slot && look(node, &KEY, 8) == TXC_DONE);
    CHECK(txc_node_open(node, 0, 0) == TXC_ALREADY_OPEN && look(node, &KEY, 8) == TXC_DONE);
}

static void try_null(txc_node *node) {
    const txc_key key = {2, 0, {0}};
    CHECK(txc_node_insert(node, &key, &STILL, NULL, 0, NULL, 0, &stored) == TXC_DONE);
    len = 77;
    CHECK(txc_node_lookup(node, &key, 0, 9, &reach, NULL, 0, &len) == TXC_DONE && len == 0);
    CHECK(txc_node_lookup(node, &KEY, 0, 9, &reach, NULL, 0, &len) == TXC_NO_ROOM && len == 1);
    CHECK(txc_node_event(node, 1, NULL, 0, &closed, &processed) == TXC_DONE && closed == 0 && processed == 1);
}

static void try_arguments(txc_node *node) {
    const txc_tag table = {TXC_LAST_TABLE + 1, TXC_ALL, 0}, kind = {1, 3, 0}, good[2] = {{15, TXC_GROUP, UINT32_MAX}, {0, TXC_ID, 0}};
    const txc_key function = {TXC_LAST_FUNCTION + 1, 0, {0}}, many = {1, TXC_MAX_ARGS + 1, {0}}, most = {63, 4, {1, 2, 3, UINT32_MAX}};
    const uint32_t beyond = UINT32_MAX; /* TXC_LAST_STAMP + 1 */
    const txc_reach late = {0, beyond, true}, turned = {2, 1, true}, both = {beyond, 0, true};
    len = closed = 77;
    CHECK(look(node, &function, 8) == TXC_BAD_ARGUMENT && look(node, &many, 8) == TXC_BAD_ARGUMENT);
    CHECK(txc_node_lookup(node, &KEY, beyond, 0, &reach, value, 8, &len) == TXC_BAD_ARGUMENT);
    CHECK(txc_node_lookup(node, &KEY, 0, UINT32_MAX, &reach, value, 8, &len) == TXC_BAD_ARGUMENT);
    CHECK(txc_node_lookup(node, &KEY, 1, 0, &reach, value, 8, &len) == TXC_EMPTY_RANGE && len == 77);
    CHECK(keep(node, &function, NULL, 0, 1) == TXC_BAD_ARGUMENT && keep(node, &many, NULL, 0, 1) == TXC_BAD_ARGUMENT);
    CHECK(keep(node, &KEY, &table, 1, 1) == TXC_BAD_ARGUMENT && keep(node, &KEY, &kind, 1, 1) == TXC_BAD_ARGUMENT);
    CHECK(txc_node_insert(node, &KEY, &late, NULL, 0, value, 1, &stored) == TXC_BAD_ARGUMENT);
    CHECK(txc_node_insert(node, &KEY, &both, NULL, 0, value, 1, &stored) == TXC_BAD_ARGUMENT);
    CHECK(txc_node_insert(node, &KEY, &turned, NULL, 0, value, TXC_MAX_VALUE_LEN + 1, &stored) == TXC_BAD_REACH);
    CHECK(keep(node, &KEY, NULL, 0, TXC_MAX_VALUE_LEN + 1) == TXC_VALUE_TOO_LONG);
    CHECK(txc_node_event(node, beyond, NULL, 0, &closed, &processed) == TXC_BAD_ARGUMENT && processed == 1);
    CHECK(txc_node_event(node, 2, &kind, 1, &closed, &processed) == TXC_BAD_ARGUMENT && processed == 1 && closed == 77);
    CHECK(txc_node_event(node, 1, NULL, 0, &closed, &processed) == TXC_OUT_OF_ORDER && processed == 1);
    CHECK(txc_node_event(node, 3, NULL, 0, &closed, &processed) == TXC_OUT_OF_ORDER && processed == 1 && closed == 77);
    CHECK(txc_node_sweep(node, beyond, &swept) == TXC_BAD_ARGUMENT);
    CHECK(txc_node_count(node, TXC_LAST_FUNCTION + 1, &counts) == TXC_BAD_ARGUMENT);
    CHECK(keep(node, &most, good, 2, TXC_MAX_VALUE_LEN) == TXC_DONE && look(node, &most, TXC_MAX_VALUE_LEN) == TXC_DONE);
    CHECK(look(node, &most, TXC_MAX_VALUE_LEN - 1) == TXC_NO_ROOM && len == TXC_MAX_VALUE_LEN);
    CHECK(stored.has_evicted && stored.evicted.function == 1 + (stored.evicted.count == 0));
}

static void try_room(txc_node *node) {
    const txc_key key = {3, 0, {0}};
    txc_reach was = {5, 6, true};
    memcpy(value, "abc", 3);
    CHECK(keep(node, &key, NULL, 0, 3) == TXC_DONE);
    memset(value, 'x', 8);
    reach = was;
    CHECK(look(node, &key, 2) == TXC_NO_ROOM && len == 3 && reach.lo == 0 && reach.known == 1 && !memcmp(value, "xxxxxxxx", 8));
    CHECK(look(node, &key, 8) == TXC_DONE && len == 3 && !memcmp(value, "abcxxxxx", 8));
    CHECK(txc_node_count(node, 3, &counts) == TXC_DONE && counts.lookups == 2 && counts.hits == 2 && counts.stored == 1);
    CHECK(txc_node_sweep(node, TXC_LAST_STAMP, &swept) == TXC_DONE && swept == 2 && look(node, &key, 8) == TXC_MISS);
}

/* More tags than a set holds, one of them twice, and a wildcard beside them. */
static void try_tags(txc_node *node) {
    txc_tag tags[1000];
    for (uint32_t n = 0; n < 1000; n++)
        tags[n] = (txc_tag){1, TXC_ID, n / 2};
    const txc_tag other = {1, TXC_GROUP, 9};
    CHECK(keep(node, &KEY, tags, 1000, 1) == TXC_DONE);
    CHECK(txc_node_event(node, 2, &other, 1, &closed, &processed) == TXC_DONE && closed == 1 && processed == 2);
}

int main(void) {
    txc_node node = TXC_NODE_CLOSED;
    try_closed(&node);
    try_opening(&node);
    try_second_opening(&node);
    try_null(&node);
    try_arguments(&node);
    try_room(&node);
    try_tags(&node);
    CHECK(txc_node_close(&node) == TXC_DONE && !node.is_open && !node.slot);
    try_closed(&node);
    CHECK(txc_node_open(&node, 1, 1) == TXC_DONE && look(&node, &KEY, 8) == TXC_MISS && txc_node_close(&node) == TXC_DONE);
    printf("%d odd uses, %d wrong\n", uses, wrong);
    return wrong != 0;
}
