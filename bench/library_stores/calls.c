/* A site's calls of rows over one of its two stores: `calls STORE`, which is sql or plain. A line of the input is an operation and a number, and it
 * prints a number for each: how many were made, or what is said below. bench/stores.py compiles and runs it, with --wrap=malloc, --wrap=realloc and
 * --wrap=free.
 *
 * A row has a body of 8 bytes. Its table and id come of its place, as the package for Python has them: its table is the place modulo 16. Rows of the
 * first filling have even ids, and new ones odd ids at random. */
#include "txc.h"
#include <malloc.h>
#include <stdio.h>
#include <stdlib.h>
#include <string.h>
#include <time.h>

/* The tables, the changes of one commit of some and of many, and the tags of one step. */
enum { TABLES = 16, SIX = 6, MANY = 240, STEP = 500, BODY = 8 };

static txc_site site = TXC_SITE_CLOSED;
static txc_txn txn;
static uint32_t rows, added, written, asked;
static size_t held;

/* ---- memory */

void *__real_malloc(size_t size);
void *__real_realloc(void *at, size_t size);
void __real_free(void *at);

void *__wrap_malloc(size_t size) {
    void *at = __real_malloc(size);
    held += malloc_usable_size(at);
    return at;
}

void *__wrap_realloc(void *before, size_t size) {
    held -= malloc_usable_size(before);
    void *at = __real_realloc(before, size);
    held += malloc_usable_size(at);
    return at;
}

void __wrap_free(void *at) {
    held -= malloc_usable_size(at);
    __real_free(at);
}

/* ---- changes */

static void must(uint32_t got, uint32_t wanted) {
    if (got != wanted) {
        printf("a call returned %u\n", got);
        exit(1);
    }
}

/* A number that looks drawn. Of different numbers it is a different one. */
static uint32_t drawn(uint32_t number) { return number * 2654435761u ^ 0x5bd1e995u; }

static void put(uint32_t table, uint32_t id) {
    char body[BODY + 1];
    snprintf(body, sizeof body, "%08u", written++ % 100000000);
    must(txc_put(&site, txn, (uint8_t)table, id, 0, (const uint8_t *)body, BODY), TXC_DONE);
}

static void commit(void) {
    uint32_t stamp;
    must(txc_commit_write(&site, txn, &stamp), TXC_DONE);
}

/* A row that is there. */
static void put_changed(void) {
    uint32_t place = drawn(written) % rows;
    put(place % TABLES, place / TABLES * 2);
}

/* A row that is not there, at an odd id. */
static void put_new(void) {
    uint32_t number = drawn(added++);
    put(number % TABLES, number / TABLES * 2 + 1);
}

/* So many changes, in commits of so many. */
static uint32_t change(void (*one)(void), uint32_t count, uint32_t each) {
    for (uint32_t at = 0; at < count; at++) {
        if (at % each == 0)
            must(txc_begin_write(&site, &txn), TXC_DONE);
        one();
        if (at % each == each - 1 || at == count - 1)
            commit();
    }
    return count;
}

/* ---- operations */

static uint32_t filled;

/* The next row of the filling: those of one table after those of another, by id. */
static void put_next(void) {
    uint32_t table = 0, first = filled++;
    for (uint32_t each; table < TABLES && first >= (each = (rows - table + TABLES - 1) / TABLES); table++)
        first -= each;
    put(table, first * 2);
}

static uint32_t fill(uint32_t count) {
    rows = count;
    return change(put_next, count, MANY);
}

/* A query by id of a row that is there, which is copied out. */
static uint32_t ask(void) {
    uint32_t place = drawn(asked++) % rows;
    uint8_t body[BODY];
    txc_row row;
    size_t found, len;
    must(txc_query_rows(&site, txn, &(txc_query){(uint8_t)(place % TABLES), TXC_ID, place / TABLES * 2, 0}, &found), TXC_ANSWERED);
    must(txc_row_at(&site, txn, 0, &row, body, BODY, &len), TXC_DONE);
    return (uint32_t)found;
}

/* So many transactions of six queries each. */
static uint32_t query(uint32_t count) {
    uint32_t found = 0;
    for (uint32_t at = 0; at < count; at++) {
        must(txc_begin_write(&site, &txn), TXC_DONE);
        for (int each = 0; each < SIX; each++)
            found += ask();
        must(txc_abort(&site, txn), TXC_DONE);
    }
    return found;
}

/* The nanoseconds of processor time of the longest of so many steps, with a keep after each. */
static uint32_t longest_step(uint32_t count) {
    uint64_t longest = 0;
    for (uint32_t at = 0; at < count; at++) {
        struct timespec begun, ended;
        txc_kept kept;
        clock_gettime(CLOCK_THREAD_CPUTIME_ID, &begun);
        change(put_changed, STEP, MANY);
        clock_gettime(CLOCK_THREAD_CPUTIME_ID, &ended);
        must(txc_keep(&site, UINT64_MAX, 0, &kept), TXC_DONE);
        uint64_t took = (uint64_t)(ended.tv_sec - begun.tv_sec) * 1000000000u + (uint64_t)ended.tv_nsec - (uint64_t)begun.tv_nsec;
        if (took > longest)
            longest = took;
    }
    return (uint32_t)longest;
}

static uint32_t keep(uint32_t count) {
    for (uint32_t at = 0; at < count; at++) {
        txc_kept kept;
        must(txc_keep(&site, UINT64_MAX, 0, &kept), TXC_DONE);
    }
    return count;
}

static uint64_t obey(const char *name, uint32_t count) {
    if (!strcmp(name, "rows"))
        return fill(count);
    if (!strcmp(name, "random")) { /* rows at random ids */
        rows = count;
        return change(put_new, count, MANY);
    }
    if (!strcmp(name, "put")) /* commits of one put of a changed row */
        return change(put_changed, count, 1);
    if (!strcmp(name, "six")) /* and of six of them */
        return change(put_changed, SIX * count, SIX);
    if (!strcmp(name, "new")) /* commits of one new row */
        return change(put_new, count, 1);
    if (!strcmp(name, "dirty")) /* puts of changed rows, in commits of many */
        return change(put_changed, count, MANY);
    if (!strcmp(name, "query"))
        return query(count);
    if (!strcmp(name, "vacuum"))
        return keep(count);
    if (!strcmp(name, "step"))
        return longest_step(count);
    return held; /* bytes: those that are live */
}

int main(int count, char **words) {
    char name[16];
    uint32_t number;
    txc_site_settings settings = TXC_SITE_SETTINGS;
    if (count != 2)
        return 2;
    settings.renew_after = 1000;
    settings.store = strcmp(words[1], "plain") ? TXC_STORE_SQL : TXC_STORE_PLAIN;
    must(txc_site_open(&site, &settings), TXC_DONE);
    while (scanf("%15s %u", name, &number) == 2) {
        printf("%llu\n", (unsigned long long)obey(name, number));
        fflush(stdout);
    }
    return txc_site_close(&site) != TXC_DONE;
}
