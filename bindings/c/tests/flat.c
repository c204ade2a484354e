/* Work that a node or a site of a fixed size does again and again, each kind through one of its own, and at a site over either store of its rows:
 * the memory that is live must not grow with how often it was done. And the memory that a row takes in either store. Prints a line for each kind,
 * and last how many there are.
 *
 * Linked with --wrap=malloc, --wrap=realloc and --wrap=free. */
#include "txc.h"
#include <malloc.h>
#include <stdio.h>
#include <stdlib.h>
#include <string.h>

/* What is live after MANY times may be GROWTH_KB more than after FEW. */
enum { FEW = 6000, MANY = 30000, GROWTH_KB = 256 };

/* A node has ENTRIES at most, and a site is kept after so many times. */
enum { ENTRIES = 64, RECENT = 16, RENEW = 1000, KEEP_EVERY = 100, MOST_CHANGES = 256 };

/* Of so many rows with a short body each takes at most PLAIN_BYTES in ordered maps, and at least SQL_BYTES in a table of SQLite. */
enum { ROWS = 65536, PLAIN_BYTES = 250, SQL_BYTES = 500 };

/* ---- memory */

static size_t live; /* bytes that the library has, as the allocator counts them */

void *__real_malloc(size_t size);
void *__real_realloc(void *at, size_t size);
void __real_free(void *at);

void *__wrap_malloc(size_t size) {
    void *at = __real_malloc(size);
    live += malloc_usable_size(at);
    return at;
}

void *__wrap_realloc(void *at, size_t size) {
    size_t before = malloc_usable_size(at);
    void *now = __real_realloc(at, size);
    if (now)
        live += malloc_usable_size(now) - before;
    return now;
}

void __wrap_free(void *at) {
    live -= malloc_usable_size(at);
    __real_free(at);
}

/* ---- a node, and a site that stores no events */

static txc_node node = TXC_NODE_CLOSED;
static txc_site site = TXC_SITE_CLOSED;
static txc_txn txn;
static unsigned kinds, wrong;

static void must(uint32_t got, uint32_t wanted, const char *what) {
    if (got != wanted) {
        printf("%s is %u where %u was wanted\n", what, got, wanted);
        exit(1);
    }
}

#define MUST(call, wanted) must((call), (wanted), #call)

/* Plays rounds of one kind, which are counted from 0. */
static void play(const char *kind, void (*round)(uint32_t)) {
    size_t few = 0;
    for (uint32_t number = 0; number < MANY; number++) {
        round(number);
        if (number + 1 == FEW)
            few = live;
    }
    bool is_flat = live <= few + GROWTH_KB * 1024;
    printf("%s: %zu KB live after %d, %zu KB after %d%s\n", kind, few / 1024, FEW, live / 1024, MANY, is_flat ? "" : ": it grows");
    kinds++;
    wrong += !is_flat;
}

static void play_at_node(const char *kind, void (*round)(uint32_t)) {
    MUST(txc_node_open(&node, ENTRIES, RECENT), TXC_DONE);
    play(kind, round);
    MUST(txc_node_close(&node), TXC_DONE);
}

static const char *const STORES[] = {[TXC_STORE_SQL] = "over SQLite", [TXC_STORE_PLAIN] = "over ordered maps"};

static void open_site(size_t store) {
    txc_site_settings settings = {sizeof settings, 0, ENTRIES, RECENT, RENEW, 0, store};
    MUST(txc_site_open(&site, &settings), TXC_DONE);
}

static void play_at_site(const char *kind, void (*prepare)(void), void (*round)(uint32_t)) {
    for (size_t store = TXC_STORE_SQL; store <= TXC_STORE_PLAIN; store++) {
        char name[128];
        snprintf(name, sizeof name, "%s, %s", kind, STORES[store]);
        open_site(store);
        if (prepare)
            prepare();
        play(name, round);
        MUST(txc_site_close(&site), TXC_DONE);
    }
}

/* ---- kinds */

/* Inserts a valid result of this argument that is known up to the stamp and depends on the row `id` alone. */
static void insert(uint32_t argument, uint32_t known, uint32_t id) {
    const txc_key key = {1, 1, {argument}};
    const txc_reach reach = {0, known, true};
    const txc_tag tag = {1, TXC_ID, id};
    txc_stored stored;
    MUST(txc_node_insert(&node, &key, &reach, &tag, 1, (const uint8_t *)"1", 1, &stored), TXC_DONE);
}

/* Each key is another one with a tag of its own, and drops the entry that was used longest ago. */
static void insert_another(uint32_t number) { insert(number, 0, number); }

/* One entry is replaced, since the new one is known longer, and has another tag. */
static void replace(uint32_t number) { insert(7, number, number); }

static void put(uint32_t id, uint32_t number) {
    char body[16];
    int len = snprintf(body, sizeof body, "%u", number);
    MUST(txc_put(&site, txn, 1, id, 7, (const uint8_t *)body, (size_t)len), TXC_DONE);
}

/* Commits, and returns the newest stamp. */
static uint32_t commit(void) {
    uint32_t stamp;
    MUST(txc_commit_write(&site, txn, &stamp), TXC_DONE);
    return stamp;
}

static void keep_now_and_then(uint32_t number) {
    txc_kept kept;
    if (number % KEEP_EVERY == KEEP_EVERY - 1)
        MUST(txc_keep(&site, number, 0, &kept), TXC_DONE);
}

/* One row is written again and again. */
static void rewrite(uint32_t number) {
    MUST(txc_begin_write(&site, &txn), TXC_DONE);
    put(7, number);
    commit();
    keep_now_and_then(number);
}

/* A row comes and goes, each time with another id. */
static void put_and_remove(uint32_t number) {
    MUST(txc_begin_write(&site, &txn), TXC_DONE);
    put(number, 0);
    commit();
    MUST(txc_begin_write(&site, &txn), TXC_DONE);
    MUST(txc_remove(&site, txn, 1, number), TXC_DONE);
    commit();
    keep_now_and_then(number);
}

static void put_rows(uint32_t count) {
    for (uint32_t id = 0; id < count; id++) {
        if (id % MOST_CHANGES == 0)
            MUST(txc_begin_write(&site, &txn), TXC_DONE);
        put(id, 0);
        if (id % MOST_CHANGES == MOST_CHANGES - 1 || id == count - 1)
            commit();
    }
}

/* As many rows as there are rounds. */
static void put_all(void) { put_rows(MANY); }

/* A commit changes nothing, since each time another row is put as it is. The site is never kept. */
static void put_as_it_is(uint32_t number) {
    static uint32_t newest;
    MUST(txc_begin_write(&site, &txn), TXC_DONE);
    put(number, 0);
    uint32_t stamp = commit();
    if (number > 0)
        must(stamp, newest, "the newest stamp");
    newest = stamp;
}

/* Which store it is, no answer tells: what its rows take does. */
static void weigh(size_t store, size_t least, size_t most) {
    txc_kept kept;
    open_site(store);
    size_t before = live;
    put_rows(ROWS);
    MUST(txc_keep(&site, 0, 0, &kept), TXC_DONE);
    size_t bytes = (live - before) / ROWS;
    bool is_so = least <= bytes && bytes <= most;
    printf("a row %s: %zu bytes%s\n", STORES[store], bytes, is_so ? "" : ": of another store");
    kinds++;
    wrong += !is_so;
    MUST(txc_site_close(&site), TXC_DONE);
}

int main(void) {
    play_at_node("entries of other keys, each with a tag of its own", insert_another);
    play_at_node("one entry replaced, each time with another tag", replace);
    play_at_site("commits of one row, with keeps", NULL, rewrite);
    play_at_site("rows put and removed, each another id, with keeps", NULL, put_and_remove);
    play_at_site("commits that change nothing, each of another row, without keeps", put_all, put_as_it_is);
    unsigned played = kinds;
    weigh(TXC_STORE_SQL, SQL_BYTES, SIZE_MAX);
    weigh(TXC_STORE_PLAIN, 0, PLAIN_BYTES);
    printf("%u kinds of work done %d times, and rows of %u stores weighed, %u wrong\n", played, MANY, kinds - played, wrong);
    return wrong != 0;
}
