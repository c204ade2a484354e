/* Values of up to 1 MiB, functions that ask up to 4,096 times, trims and budgets, at a node and at a site, each with what must come of it; a hit of a
 * long value makes no allocation of its size; and a page of long values with every allocation refused in its turn. Prints how many there are. */
#include "odd.h"

enum { MOST = TXC_MAX_VALUE_LEN, PAGE = 200 * 1000, SMALL = 4096 };

static const size_t LENGTHS[] = {0, 1, 1024, 1025, 65536, PAGE, MOST - 1, MOST};
enum { COUNT = sizeof LENGTHS / sizeof *LENGTHS };

static uint8_t value[MOST], made[MOST + 1];
static size_t len, dropped, count;
static txc_totals totals;
static uint32_t stamp;
static txc_receipt receipt;

/* Bytes that are other ones for each seed. */
static const uint8_t *bytes_of(uint32_t seed) {
    for (size_t at = 0; at < sizeof made; at++)
        made[at] = (uint8_t)(seed * 31 + ((uint32_t)at * 2654435761u >> 20));
    return made;
}

/* What was given: so many bytes of the seed. */
static bool is_of(uint32_t seed, size_t wanted) { return len == wanted && !memcmp(value, bytes_of(seed), wanted); }

static void clear(void) { memset(value, 0x5a, sizeof value); }

/* Whether no byte was written since `clear`. */
static bool is_clear(void) {
    for (size_t at = 0; at < sizeof value; at++)
        if (value[at] != 0x5a)
            return false;
    return true;
}

static bool are(size_t entries, size_t bytes, uint64_t trimmed) {
    return totals.entries == entries && totals.bytes == bytes && totals.trimmed == trimmed;
}

/* ---- a node */

static txc_node node;
static txc_reach reach;
static txc_stored stored;

static uint32_t insert(uint32_t number, uint32_t known, size_t bytes) {
    const txc_key key = {1, 1, {number}};
    const txc_tag tag = {1, TXC_ID, number};
    return txc_node_insert(&node, &key, &(txc_reach){0, known, true}, &tag, 1, bytes_of(number), bytes, &stored);
}

static uint32_t look(uint32_t number, size_t room) {
    const txc_key key = {1, 1, {number}};
    return txc_node_lookup(&node, &key, 0, 9, &reach, value, room, &len);
}

static bool node_has(size_t entries, size_t bytes, uint64_t trimmed) { return txc_node_totals(&node, &totals) == TXC_DONE && are(entries, bytes, trimmed); }
static bool node_drops(size_t most, size_t wanted) { return txc_node_trim(&node, most, &dropped) == TXC_DONE && dropped == wanted; }

static void try_closed_node(void) {
    dropped = totals.entries = 77;
    CHECK(txc_node_trim(&node, 0, &dropped) == TXC_CLOSED && dropped == 77);
    CHECK(txc_node_totals(&node, &totals) == TXC_CLOSED && totals.entries == 77);
}

static void try_lengths(void) {
    size_t all = 0;
    for (uint32_t at = 0; at < COUNT; at++) {
        size_t bytes = LENGTHS[at];
        CHECK(insert(at, 0, bytes) == TXC_DONE && node_has(at + 1, all += bytes, 0));
        clear();
        CHECK((!bytes || (look(at, bytes - 1) == TXC_NO_ROOM && len == bytes)) && is_clear());
        CHECK(look(at, bytes) == TXC_DONE && is_of(at, bytes) && look(at, MOST) == TXC_DONE && is_of(at, bytes));
    }
    CHECK(insert(7, 3, MOST + 1) == TXC_VALUE_TOO_LONG && node_has(COUNT, all, 0) && look(7, MOST) == TXC_DONE && is_of(7, MOST));
    for (uint32_t at = 0; at < COUNT; at++) {
        largest = 0;
        CHECK(look(at, MOST) == TXC_DONE && look(at, 0) == (LENGTHS[at] ? TXC_NO_ROOM : TXC_DONE) && largest < SMALL);
    }
    CHECK(node_drops(all, 0) && node_drops(SIZE_MAX, 0) && node_has(COUNT, all, 0));
}

/* The entry that was used longest ago goes first, and as few go as may be. */
static void try_order(void) {
    for (uint32_t at = 1; at <= 3; at++)
        CHECK(insert(at, 0, 100 * at) == TXC_DONE);
    CHECK(insert(4, 0, 0) == TXC_DONE && node_has(4, 600, 0) && node_drops(600, 0) && node_drops(599, 1) && node_has(3, 500, 1));
    CHECK(look(1, MOST) == TXC_MISS && look(2, MOST) == TXC_DONE && is_of(2, 200));
    CHECK(node_drops(499, 1) && node_has(2, 200, 2) && look(3, MOST) == TXC_MISS);
    CHECK(node_drops(199, 2) && node_has(0, 0, 4) && look(2, MOST) == TXC_MISS && look(4, MOST) == TXC_MISS);
    CHECK(insert(4, 0, 0) == TXC_DONE && node_drops(0, 0) && look(4, 0) == TXC_DONE && node_has(1, 0, 4));
}

/* What is replaced, dropped to make room, closed or swept is counted no more than it is there. */
static void try_totals(void) {
    size_t closed, swept;
    uint32_t processed;
    txc_counts counts;
    CHECK(insert(1, 0, PAGE) == TXC_DONE && node_has(1, PAGE, 0) && insert(1, 0, 50) == TXC_KEPT && node_has(1, PAGE, 0));
    CHECK(txc_node_event(&node, 1, &(txc_tag){1, TXC_ID, 1}, 1, &closed, &processed) == TXC_DONE && closed == 1 && node_has(1, PAGE, 0));
    CHECK(txc_node_sweep(&node, 1, &swept) == TXC_DONE && swept == 1 && node_has(0, 0, 0));
    for (uint32_t at = 0; at <= COUNT; at++)
        CHECK(insert(100 + at, 1, 1000 + at) == TXC_DONE);
    CHECK(stored.has_evicted && stored.evicted.args[0] == 100 && node_has(COUNT, 8 * 1000 + 36, 0));
    CHECK(node_drops(2 * 1000 + 15, 6) && node_has(2, 2015, 6) && look(108, MOST) == TXC_DONE && look(107, MOST) == TXC_DONE && look(106, MOST) == TXC_MISS);
    CHECK(txc_node_count(&node, 1, &counts) == TXC_DONE && counts.evicted == 1);
}

static void try_node(void) {
    void (*tries[])(void) = {try_lengths, try_order, try_totals};
    node = (txc_node)TXC_NODE_CLOSED;
    for (size_t at = 0; at < 3; at++) {
        try_closed_node();
        CHECK(txc_node_open(&node, COUNT, 4) == TXC_DONE && node_has(0, 0, 0) && node_drops(0, 0));
        tries[at]();
        CHECK(txc_node_close(&node) == TXC_DONE);
    }
    try_closed_node();
}

/* ---- a site: function 0 asks for rows and gives bytes of its number, and function 1 calls it */

static txc_site site;
static txc_txn txn;

static uint32_t call(uint8_t function, uint32_t number, size_t room) {
    const txc_key key = {function, 1, {number}};
    return txc_call(&site, txn, &key, value, room, &len);
}

static uint32_t rows(void) { return txc_query_rows(&site, txn, &(txc_query){1, TXC_GROUP, 7, 0}, &count); }
static uint32_t finish(uint32_t number, size_t bytes, size_t room) { return txc_finish(&site, txn, bytes_of(number), bytes, value, room, &len); }
static uint32_t answer(size_t room) { return txc_answer(&site, txn, value, room, &len); }
static bool site_has(size_t entries, size_t bytes, uint64_t trimmed) { return txc_site_totals(&site, &totals) == TXC_DONE && are(entries, bytes, trimmed); }
static bool site_drops(size_t most, size_t wanted) { return txc_site_trim(&site, most, &dropped) == TXC_DONE && dropped == wanted; }
static uint32_t begin(bool is_writing) { return is_writing ? txc_begin_write(&site, &txn) : txc_begin(&site, 1000, 30000, 0, &txn); }
static uint32_t commit(bool is_writing) { return is_writing ? txc_commit_write(&site, txn, &stamp) : txc_commit(&site, txn, &receipt); }

static void open_within(size_t events, size_t bytes) {
    site = (txc_site)TXC_SITE_CLOSED;
    CHECK(txc_site_open(&site, &(txc_site_settings){sizeof(txc_site_settings), events, 0, 0, 30000, bytes, TXC_STORE_SQL}) == TXC_DONE);
    CHECK(begin(true) == TXC_DONE && txc_put(&site, txn, 1, 1, 7, (const uint8_t *)"110", 3) == TXC_DONE && commit(true) == TXC_DONE);
}

static void open_site(size_t events) { open_within(events, 0); }

static void try_closed_site(void) {
    dropped = totals.bytes = 77;
    CHECK(txc_site_trim(&site, 0, &dropped) == TXC_CLOSED && dropped == 77);
    CHECK(txc_site_totals(&site, &totals) == TXC_CLOSED && totals.bytes == 77);
}

static void try_values(bool is_writing) {
    CHECK(begin(is_writing) == TXC_DONE);
    for (uint32_t at = 1; at < COUNT; at++) {
        size_t bytes = LENGTHS[at];
        CHECK(call(0, at, MOST) == TXC_COMPUTE && rows() == TXC_ANSWERED && count == 1);
        clear();
        CHECK(finish(at, bytes, bytes - 1) == TXC_NO_ROOM && len == bytes && is_clear() && answer(bytes) == TXC_DONE && is_of(at, bytes));
        CHECK(call(1, at, MOST) == TXC_COMPUTE && call(0, at, bytes - 1) == (is_writing ? TXC_COMPUTE : TXC_NO_ROOM));
        CHECK(!is_writing || finish(at, bytes, MOST) == TXC_ANSWERED);
        CHECK(answer(bytes) == TXC_ANSWERED && is_of(at, bytes) && finish(at, bytes / 2, MOST) == TXC_DONE && is_of(at, bytes / 2));
    }
    CHECK(call(0, 77, MOST) == TXC_COMPUTE && finish(77, MOST + 1, MOST) == TXC_REFUSED && txc_give_up(&site, txn) == TXC_MISS);
    CHECK(call(1, 77, MOST) == TXC_COMPUTE && call(0, 77, MOST) == TXC_COMPUTE && finish(77, MOST + 1, MOST) == TXC_REFUSED);
    CHECK(finish(77, 1, MOST) == TXC_NOT_OPEN && call(0, 77, MOST) == TXC_COMPUTE && finish(77, MOST, MOST) == TXC_DONE && is_of(77, MOST));
    CHECK(commit(is_writing) == TXC_DONE && (is_writing || receipt.answers == 2 * (COUNT - 1) + 1));
}

/* Hits of what `try_values` left: none makes an allocation of its size. */
static void try_hits(void) {
    CHECK(begin(false) == TXC_DONE && call(0, 1, MOST) == TXC_DONE);
    for (uint32_t at = 1; at < COUNT; at++) {
        largest = 0;
        CHECK(call(0, at, MOST) == TXC_DONE && answer(MOST) == TXC_DONE && call(0, at, 0) == TXC_NO_ROOM && largest < SMALL);
        CHECK(answer(MOST) == TXC_DONE && is_of(at, LENGTHS[at]));
        CHECK(call(1, 1000 + at, MOST) == TXC_COMPUTE && call(0, at, MOST) == TXC_ANSWERED && is_of(at, LENGTHS[at]) && txc_give_up(&site, txn) == TXC_DONE);
    }
    CHECK(commit(false) == TXC_DONE);
}

/* ---- asks */

static long asked(long wanted) {
    long answered = 0;
    for (long at = 0; at < wanted; at++)
        answered += rows() == TXC_ANSWERED;
    return answered;
}

static void try_asks(bool is_writing) {
    enum { MANY = 300, MOST_ASKS = 4096 };
    CHECK(begin(is_writing) == TXC_DONE && call(0, MANY, MOST) == TXC_COMPUTE && asked(MANY) == MANY && finish(MANY, 5, MOST) == TXC_DONE);
    CHECK(call(0, MANY, MOST) == (is_writing ? TXC_COMPUTE : TXC_DONE) && (!is_writing || finish(MANY, 5, MOST) == TXC_DONE) && is_of(MANY, 5));
    CHECK(call(0, 1000, MOST) == TXC_COMPUTE && asked(MOST_ASKS - 1) == MOST_ASKS - 1 && finish(1, PAGE, MOST) == TXC_DONE && is_of(1, PAGE));
    CHECK(call(0, 1001, MOST) == TXC_COMPUTE && asked(MOST_ASKS) == MOST_ASKS);
    CHECK(rows() == TXC_REFUSED && finish(1, 1, MOST) == TXC_NOT_OPEN && txc_give_up(&site, txn) == TXC_MISS);
    CHECK(call(0, 1002, MOST) == TXC_COMPUTE && asked(MOST_ASKS) == MOST_ASKS && finish(1, 1, MOST) == TXC_REFUSED && txc_give_up(&site, txn) == TXC_MISS);
    CHECK(call(1, 1003, MOST) == TXC_COMPUTE && call(0, 1003, MOST) == TXC_COMPUTE && asked(MOST_ASKS - 1) == MOST_ASKS - 1);
    CHECK(rows() == TXC_REFUSED && finish(1, 1, MOST) == TXC_NOT_OPEN);
    CHECK(commit(is_writing) == TXC_DONE && (is_writing || receipt.answers == 3));
    CHECK(begin(false) == TXC_DONE && (is_writing || (call(0, 1000, MOST) == TXC_DONE && is_of(1, PAGE))) && commit(false) == TXC_DONE);
}

/* ---- trims */

/* A trim leaves what is open as it is, in mid-call too: what was dropped is computed anew, and answers stay right. */
static void try_trims(void) {
    CHECK(site_has(0, 0, 0) && site_drops(0, 0) && begin(false) == TXC_DONE);
    for (uint32_t at = 1; at <= 3; at++)
        CHECK(call(0, at, MOST) == TXC_COMPUTE && rows() == TXC_ANSWERED && finish(at, at * PAGE, MOST) == TXC_DONE);
    CHECK(site_has(3, 6 * PAGE, 0) && call(0, 1, MOST) == TXC_DONE && site_drops(6 * PAGE, 0) && site_drops(5 * PAGE, 1) && site_has(2, 4 * PAGE, 1));
    CHECK(call(0, 2, MOST) == TXC_COMPUTE && rows() == TXC_ANSWERED && site_drops(0, 2) && site_has(0, 0, 3) && answer(MOST) == TXC_ANSWERED);
    CHECK(finish(2, 2 * PAGE, MOST) == TXC_DONE && is_of(2, 2 * PAGE) && site_drops(0, 1) && answer(MOST) == TXC_DONE && is_of(2, 2 * PAGE));
    CHECK(call(1, 9, MOST) == TXC_COMPUTE && call(0, 3, MOST) == TXC_COMPUTE && rows() == TXC_ANSWERED && finish(3, 3 * PAGE, MOST) == TXC_ANSWERED);
    CHECK(site_drops(0, 1) && answer(MOST) == TXC_ANSWERED && is_of(3, 3 * PAGE) && finish(9, 1, MOST) == TXC_DONE && site_has(1, 1, 5));
    CHECK(commit(false) == TXC_DONE && receipt.answers == 6 && site_drops(SIZE_MAX, 0));
}

/* ---- budgets */

/* The call is computed, reads rows and has this value, which is kept if it may be. */
static bool makes(uint32_t number, size_t bytes) {
    return call(0, number, MOST) == TXC_COMPUTE && rows() == TXC_ANSWERED && finish(number, bytes, MOST) == TXC_DONE && is_of(number, bytes);
}

static bool has(uint32_t number, size_t bytes) { return call(0, number, MOST) == TXC_DONE && is_of(number, bytes); }

/* A site makes room for a value within its budget, and keeps none that alone is over it. */
static void try_budget(size_t events) {
    enum { BUDGET = 3 * PAGE };
    open_within(events, BUDGET);
    CHECK(begin(false) == TXC_DONE && makes(1, PAGE) && makes(2, PAGE) && makes(3, PAGE) && site_has(3, BUDGET, 0) && has(1, PAGE));
    CHECK(makes(4, 1) && site_has(3, 2 * PAGE + 1, 1) && has(3, PAGE) && has(1, PAGE) && has(4, 1)); /* 2 was used longest ago */
    CHECK(makes(5, BUDGET + 1) && site_has(3, 2 * PAGE + 1, 1) && has(1, PAGE) && makes(5, BUDGET + 1)); /* it is not kept, and no other goes */
    CHECK(makes(6, PAGE - 1) && site_has(4, BUDGET, 1) && makes(7, 0) && site_has(5, BUDGET, 1)); /* they just fit */
    CHECK(call(1, 8, MOST) == TXC_COMPUTE && call(0, 9, MOST) == TXC_COMPUTE && rows() == TXC_ANSWERED && finish(9, BUDGET, MOST) == TXC_ANSWERED);
    CHECK(is_of(9, BUDGET) && site_has(2, BUDGET, 5) && /* 7 has no byte, and stays */
         finish(8, 1, MOST) == TXC_DONE && site_has(1, 1, 7) && site_drops(BUDGET, 0));
    CHECK(commit(false) == TXC_DONE && receipt.answers == 14 && txc_site_close(&site) == TXC_DONE);
}

/* Whatever comes, a site is never over its budget; without one nothing is trimmed. */
static void try_sums(size_t events, size_t bytes) {
    enum { CALLS = 400 };
    size_t sum = 0;
    open_within(events, bytes);
    CHECK(begin(false) == TXC_DONE);
    for (uint32_t at = 0; at < CALLS; at++) {
        size_t given = at * 7919 % 5000;
        sum += given;
        CHECK(makes(at, given) && txc_site_totals(&site, &totals) == TXC_DONE && (bytes ? totals.bytes <= bytes : totals.bytes == sum && totals.trimmed == 0));
        CHECK(at % 50 || (commit(false) == TXC_DONE && begin(false) == TXC_DONE));
    }
    CHECK(commit(false) == TXC_DONE && txc_site_close(&site) == TXC_DONE);
}

static void try_site(size_t events) {
    void (*tries[])(bool) = {try_values, try_asks};
    for (size_t at = 0; at < 4; at++) {
        open_site(events);
        tries[at / 2](at % 2);
        if (at == 0)
            try_hits();
        CHECK(at % 2 == 0 || site_has(0, 0, 0));
        CHECK(txc_site_close(&site) == TXC_DONE);
    }
    open_site(events);
    try_trims();
    CHECK(txc_site_close(&site) == TXC_DONE);
    try_budget(events);
    for (size_t bytes = 0; bytes <= 20000; bytes += bytes ? 9999 : 1)
        try_sums(events ? 1024 : 0, bytes);
    try_closed_site();
}

/* ---- allocations that are refused */

static bool is_page(size_t events) {
    site = (txc_site)TXC_SITE_CLOSED;
    bool is_whole = txc_site_open(&site, &(txc_site_settings){sizeof(txc_site_settings), events, 8, 8, 30000, 0, TXC_STORE_SQL}) == TXC_DONE
        && begin(true) == TXC_DONE && txc_put(&site, txn, 1, 1, 7, (const uint8_t *)"110", 3) == TXC_DONE && commit(true) == TXC_DONE
        && begin(false) == TXC_DONE && call(1, 1, MOST) == TXC_COMPUTE && call(0, 1, MOST) == TXC_COMPUTE && asked(70) == 70
        && finish(1, PAGE, MOST) == TXC_ANSWERED && finish(2, 2 * PAGE, MOST) == TXC_DONE && call(0, 1, MOST) == TXC_DONE && is_of(1, PAGE)
        && site_drops(PAGE, 1) && call(1, 2, MOST) == TXC_COMPUTE && finish(3, MOST, MOST) == TXC_DONE && is_of(3, MOST) && commit(false) == TXC_DONE;
    txc_site_close(&site);
    return is_whole && !site.is_open;
}

int main(void) {
    long refused = 0;
    try_node();
    for (size_t events = 0; events <= 64; events += 64) {
        try_site(events);
        long of_page = refuse_each(is_page, events);
        CHECK(of_page > 0);
        refused += of_page;
    }
    printf("%d uses of long values, many asks, trims and budgets, %d wrong; %ld allocations of a page, each refused in its turn\n", uses, wrong, refused);
    return wrong != 0;
}
