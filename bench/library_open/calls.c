/* Calls of a site beside transactions that are open, through the library for C: `calls OPEN KIND COUNT`. So many transactions are in mid-call of depth
 * one, each with an answer of one row; then so many calls are made that are hits or misses, or so many commits. Prints how many bytes each open one
 * takes. bench/open.py compiles and counts it; linked with --wrap=malloc, --wrap=realloc and --wrap=free. */
#include "txc.h"
#include <malloc.h>
#include <stdio.h>
#include <stdlib.h>
#include <string.h>

enum { ROWS = 200, KEPT = 100, PAGE = 16 };

static txc_site site = TXC_SITE_CLOSED;
static uint8_t value[TXC_MAX_VALUE_LEN];
static const uint8_t BODY[16] = "1234567890123456";
static size_t len, held;

void *__real_malloc(size_t size);
void *__real_realloc(void *at, size_t size);
void __real_free(void *at);

static size_t size_of(void *at) { return at ? malloc_usable_size(at) : 0; }

void *__wrap_malloc(size_t size) {
    void *at = __real_malloc(size);
    held += size_of(at);
    return at;
}

void *__wrap_realloc(void *before, size_t size) {
    held -= size_of(before);
    void *at = __real_realloc(before, size);
    held += size_of(at);
    return at;
}

void __wrap_free(void *at) {
    held -= size_of(at);
    __real_free(at);
}

static void must(bool is_so) {
    if (!is_so)
        exit(1);
}

static txc_txn begin(void) {
    txc_txn txn;
    must(txc_begin(&site, 1000, 30000, 0, &txn) == TXC_DONE);
    return txn;
}

static void end(txc_txn txn) {
    txc_receipt receipt;
    must(txc_commit(&site, txn, &receipt) == TXC_DONE);
}

static uint32_t call(txc_txn txn, uint8_t function, uint32_t one, uint32_t other) {
    return txc_call(&site, txn, &(txc_key){function, 2, {one, other}}, value, sizeof value, &len);
}

static void query(txc_txn txn, uint32_t id) {
    size_t count;
    must(txc_query_rows(&site, txn, &(txc_query){1, TXC_ID, id, 0}, &count) == TXC_ANSWERED && count == 1);
}

static void compute(txc_txn txn, uint8_t function, uint32_t one, uint32_t other) {
    must(call(txn, function, one, other) == TXC_COMPUTE);
    query(txn, other % ROWS);
    must(txc_finish(&site, txn, BODY, sizeof BODY, value, sizeof value, &len) == TXC_DONE);
}

static void write_rows(uint32_t first, uint32_t count) {
    txc_txn txn;
    uint32_t stamp;
    must(txc_begin_write(&site, &txn) == TXC_DONE);
    for (uint32_t id = first; id < first + count; id++)
        must(txc_put(&site, txn, 1, id, 0, BODY, sizeof BODY) == TXC_DONE);
    must(txc_commit_write(&site, txn, &stamp) == TXC_DONE);
}

static void show_page(bool is_hit, uint32_t first) {
    txc_txn txn = begin();
    for (uint32_t number = first; number < first + PAGE; number++) {
        if (is_hit)
            must(call(txn, 1, 0, number % KEPT) == TXC_DONE);
        else
            compute(txn, 3, number, number);
    }
    end(txn);
}

int main(int count, char **words) {
    if (count != 4)
        return 2;
    uint32_t open = (uint32_t)atol(words[1]), made = (uint32_t)atol(words[3]);
    txc_site_settings settings = TXC_SITE_SETTINGS;
    settings.renew_after = 100000;
    must(txc_site_open(&site, &settings) == TXC_DONE);
    write_rows(0, ROWS);
    txc_txn first = begin();
    for (uint32_t number = 0; number < KEPT; number++)
        compute(first, 1, 0, number);
    end(first);
    size_t before = held;
    for (uint32_t number = 0; number < open; number++) {
        txc_txn txn = begin();
        must(call(txn, 2, number, 0) == TXC_COMPUTE);
        query(txn, 5);
    }
    size_t after = held;
    for (uint32_t number = 0; number < made; number += strcmp(words[2], "commit") ? PAGE : 1) {
        if (!strcmp(words[2], "commit"))
            write_rows(ROWS + number % KEPT, 1);
        else
            show_page(!strcmp(words[2], "hit"), number);
    }
    printf("%.0f\n", open ? (double)(after - before) / open : 0.0);
    return txc_site_close(&site) != TXC_DONE;
}
