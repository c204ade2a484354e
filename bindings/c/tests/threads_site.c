/* Eight threads at random, which share a site by a lock of single calls, beside a plain model: what a page was answered is the model's at the stamp of
 * its receipt, and what an update read is the model's newest as it is committed.
 *
 * usage: threads_site [--no-lock]     without the lock a sanitizer of threads is to report it */
#include "txc.h"
#include <inttypes.h>
#include <pthread.h>
#include <sched.h>
#include <stdio.h>
#include <stdlib.h>
#include <string.h>

enum { THREADS = 8, ACTS = 600, IDS = 8, GROUPS = 4, MOST_STATES = THREADS * ACTS + 1, SHOWN = 4 };

/* A state: of each id its group, and its body, of which 0 is none. */
typedef struct {
    uint32_t stamp;
    struct { uint32_t group, body; } rows[IDS];
} state;

/* The text of a group: its bodies by id, each with a comma. */
typedef struct {
    char bytes[256];
    size_t len;
} text;

/* What a page showed. */
typedef struct {
    uint32_t stamp;
    size_t count;
    struct { uint32_t one, other; text shown; } calls[SHOWN];
} page;

typedef struct {
    pthread_t thread;
    uint64_t random;
    txc_txn txn;
    page pages[ACTS];
    size_t pages_count, updates, conflicts, wrong;
} worker;

static txc_site site = TXC_SITE_CLOSED;
static pthread_mutex_t lock = PTHREAD_MUTEX_INITIALIZER;
static bool has_lock = true;
static worker workers[THREADS];
/* beside the site, under its lock */
static state states[MOST_STATES];
static size_t states_count = 1;
static uint64_t now = 1000;

static void take(void) {
    if (has_lock)
        pthread_mutex_lock(&lock);
}

static void leave(void) {
    if (has_lock)
        pthread_mutex_unlock(&lock);
}

static void must(bool is_so, const char *what) {
    if (!is_so) {
        printf("threads_site: %s\n", what);
        exit(1);
    }
}

static uint32_t chance(worker *it, uint32_t most) {
    it->random ^= it->random << 13;
    it->random ^= it->random >> 7;
    it->random ^= it->random << 17;
    return (uint32_t)(it->random % most);
}

/* ---- the model */

static void add(text *to, const char *bytes, size_t len) {
    must(to->len + len <= sizeof to->bytes, "a text is too long");
    memcpy(to->bytes + to->len, bytes, len);
    to->len += len;
}

static void add_body(text *to, uint32_t body) {
    char one[16];
    add(to, one, (size_t)snprintf(one, sizeof one, "%" PRIu32 ",", body));
}

static text group_in(const state *of, uint32_t group) {
    text all = {{0}, 0};
    for (int id = 0; id < IDS; id++)
        if (of->rows[id].body && of->rows[id].group == group)
            add_body(&all, of->rows[id].body);
    return all;
}

static bool are_equal(const text *one, const text *other) { return one->len == other->len && !memcmp(one->bytes, other->bytes, one->len); }

/* The state of a stamp: the last that is not of a later one. */
static const state *state_at(uint32_t stamp) {
    size_t at = states_count;
    while (states[--at].stamp > stamp)
        must(at > 0, "a stamp before the first");
    return &states[at];
}

/* ---- functions: 1 is the text of a group, 2 those of two groups */

/* The text of a group, by one query with its rows. */
static bool read_group(worker *it, uint32_t group, text *to) {
    size_t count = 0, len = 0;
    take();
    uint32_t number = txc_query_rows(&site, it->txn, &(txc_query){1, TXC_GROUP, group, 0}, &count);
    for (size_t at = 0; number == TXC_ANSWERED && at < count; at++) {
        txc_row row;
        uint8_t body[256];
        must(txc_row_at(&site, it->txn, at, &row, body, sizeof body, &len) == TXC_DONE, "a row");
        add(to, (const char *)body, len);
        add(to, ",", 1);
    }
    leave();
    return number == TXC_ANSWERED;
}

static bool call(worker *it, uint8_t function, uint32_t one, uint32_t other, text *value);

static bool compute(worker *it, uint8_t function, uint32_t one, uint32_t other, text *to) {
    if (function == 1)
        return read_group(it, one, to);
    text first = {{0}, 0}, second = {{0}, 0};
    if (!call(it, 1, one, 0, &first))
        return false;
    sched_yield();
    if (!call(it, 1, other, 0, &second))
        return false;
    add(to, first.bytes, first.len);
    add(to, ";", 1);
    add(to, second.bytes, second.len);
    return true;
}

static bool call(worker *it, uint8_t function, uint32_t one, uint32_t other, text *value) {
    txc_key key = {function, function, {one, other}};
    take();
    uint32_t number = txc_call(&site, it->txn, &key, (uint8_t *)value->bytes, sizeof value->bytes, &value->len);
    leave();
    if (number == TXC_COMPUTE) {
        text made = {{0}, 0};
        if (!compute(it, function, one, other, &made))
            return false;
        take();
        number = txc_finish(&site, it->txn, (const uint8_t *)made.bytes, made.len, (uint8_t *)value->bytes, sizeof value->bytes, &value->len);
        leave();
    }
    return number == TXC_DONE || number == TXC_ANSWERED;
}

/* ---- pages and updates */

static void show_page(worker *it) {
    page *shown = &it->pages[it->pages_count];
    take();
    now += chance(it, 3);
    must(txc_begin(&site, now, chance(it, 200), 0, &it->txn) == TXC_DONE, "a page begins");
    leave();
    for (shown->count = 0; shown->count < 1 + chance(it, SHOWN); shown->count++) {
        uint32_t one = chance(it, GROUPS), other = chance(it, GROUPS);
        shown->calls[shown->count].one = one;
        shown->calls[shown->count].other = other;
        must(call(it, 2, one, other, &shown->calls[shown->count].shown), "a call of a page");
    }
    txc_receipt receipt;
    take();
    must(txc_commit(&site, it->txn, &receipt) == TXC_DONE && receipt.has_pin && receipt.answers == shown->count, "a page ends");
    leave();
    shown->stamp = receipt.stamp;
    it->pages_count++;
}

/* Notes what was committed; the model's newest state is to have what was read. */
static void note_update(worker *it, uint32_t stamp, uint32_t group, const text *read, uint32_t id, uint32_t body) {
    state *newest = &states[states_count - 1], *next = &states[states_count];
    text wanted = group_in(newest, group);
    it->wrong += !are_equal(&wanted, read);
    *next = *newest;
    next->stamp = stamp;
    next->rows[id].group = group;
    next->rows[id].body = body;
    states_count++;
    it->updates++;
}

static void update(worker *it) {
    uint32_t group = chance(it, GROUPS), id = chance(it, IDS), body = 1 + chance(it, 999), stamp = 0;
    text read = {{0}, 0};
    char bytes[16];
    int len = snprintf(bytes, sizeof bytes, "%" PRIu32, body);
    take();
    must(txc_begin_write(&site, &it->txn) == TXC_DONE, "an update begins");
    leave();
    must(chance(it, 2) ? call(it, 1, group, 0, &read) : read_group(it, group, &read), "an update reads");
    take();
    must(txc_put(&site, it->txn, 1, id, group, (const uint8_t *)bytes, (size_t)len) == TXC_DONE, "an update changes");
    leave();
    sched_yield();
    take();
    uint32_t number = txc_commit_write(&site, it->txn, &stamp);
    if (number == TXC_DONE) {
        note_update(it, stamp, group, &read, id, body);
    } else {
        must(number == TXC_CONFLICT && txc_abort(&site, it->txn) == TXC_DONE, "an update ends");
        it->conflicts++;
    }
    leave();
}

static void keep(void) {
    txc_kept kept;
    take();
    must(txc_keep(&site, now, 300, &kept) == TXC_DONE, "a keep");
    leave();
}

static void *run(void *of) {
    worker *it = of;
    for (int act = 0; act < ACTS; act++) {
        uint32_t kind = chance(it, 100);
        if (kind < 3)
            keep();
        else if (kind < 35)
            update(it);
        else
            show_page(it);
    }
    return NULL;
}

/* Whether all that a page showed is the model's at its stamp. */
static bool is_right(const page *it) {
    const state *of = state_at(it->stamp);
    for (size_t at = 0; at < it->count; at++) {
        text wanted = group_in(of, it->calls[at].one), other = group_in(of, it->calls[at].other);
        add(&wanted, ";", 1);
        add(&wanted, other.bytes, other.len);
        if (!are_equal(&wanted, &it->calls[at].shown))
            return false;
    }
    return true;
}

int main(int count, char **words) {
    has_lock = !(count == 2 && !strcmp(words[1], "--no-lock"));
    txc_site_settings settings = {sizeof settings, 0, 64, 64, 20, 0, TXC_STORE_SQL};
    size_t pages = 0, updates = 0, conflicts = 0, wrong = 0, open = 0;
    must(txc_site_open(&site, &settings) == TXC_DONE, "a site");
    for (int at = 0; at < THREADS; at++) {
        workers[at].random = 88172645463325252u + (uint64_t)at;
        must(!pthread_create(&workers[at].thread, NULL, run, &workers[at]), "a thread");
    }
    for (int at = 0; at < THREADS; at++)
        pthread_join(workers[at].thread, NULL);
    for (int at = 0; at < THREADS; at++) {
        for (size_t shown = 0; shown < workers[at].pages_count; shown++)
            wrong += !is_right(&workers[at].pages[shown]);
        wrong += workers[at].wrong;
        pages += workers[at].pages_count;
        updates += workers[at].updates;
        conflicts += workers[at].conflicts;
    }
    wrong += txc_open_transactions(&site, &open) != TXC_DONE || open;
    must(txc_site_close(&site) == TXC_DONE, "a close");
    printf("eight threads beside a model: %zu pages, %zu updates, %zu conflicts, %zu wrong\n", pages, updates, conflicts, wrong);
    return wrong != 0;
}
