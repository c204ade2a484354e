/* Hits of values of one length through the library for C: `calls KIND LENGTH COUNT`. KIND is node, site (in transactions of 64 calls) or copy (which copies as
 * many bytes, and asks nobody). With entries so many entries are inserted into a node, and it prints how many bytes each takes beside its value.
 * bench/values.py compiles and runs it; linked with --wrap=malloc, --wrap=realloc and --wrap=free. */
#include "txc.h"
#include <malloc.h>
#include <stdio.h>
#include <stdlib.h>
#include <string.h>

enum { CALLS = 64, KEYS = 4 };

static txc_node node = TXC_NODE_CLOSED;
static txc_site site = TXC_SITE_CLOSED;
static txc_txn txn;
static uint8_t value[TXC_MAX_VALUE_LEN], from[TXC_MAX_VALUE_LEN], *sources[KEYS];
static size_t held;
static uint32_t computed;

void *__real_malloc(size_t size);
void *__real_realloc(void *at, size_t size);
void __real_free(void *at);

static size_t size_of(void *at) { return at ? malloc_usable_size(at) : 0; }

void *__wrap_malloc(size_t size) {
    void *at = __real_malloc(size);
    held += size_of(at);
    return at;
}

void *__wrap_realloc(void *before, size_t size) {
    held -= size_of(before);
    void *at = __real_realloc(before, size);
    held += size_of(at);
    return at;
}

void __wrap_free(void *at) {
    held -= size_of(at);
    __real_free(at);
}

static void must(uint32_t got, uint32_t wanted) {
    if (got != wanted)
        exit(1);
}

static void insert(uint32_t number, size_t length) {
    const txc_key key = {1, 1, {number}};
    const txc_tag tag = {1, TXC_ID, number};
    const txc_reach reach = {0, 0, true};
    txc_stored stored;
    must(txc_node_insert(&node, &key, &reach, &tag, 1, from, length, &stored), TXC_DONE);
}

static void look(uint32_t number) {
    const txc_key key = {1, 1, {number % KEYS}};
    txc_reach reach;
    size_t len;
    must(txc_node_lookup(&node, &key, 0, 0, &reach, value, sizeof value, &len), TXC_DONE);
}

static void call(uint32_t number, size_t length) {
    const txc_key key = {1, 1, {number % KEYS}};
    size_t len;
    uint32_t came = txc_call(&site, txn, &key, value, sizeof value, &len);
    if (came == TXC_COMPUTE) {
        size_t count;
        must(txc_query_rows(&site, txn, &(txc_query){1, TXC_ID, 1, 0}, &count), TXC_ANSWERED);
        came = txc_finish(&site, txn, from, length, value, sizeof value, &len);
        computed++;
    }
    must(came, TXC_DONE);
}

static void show_page(uint32_t first, size_t length) {
    txc_receipt receipt;
    must(txc_begin(&site, 0, 1000, 0, &txn), TXC_DONE);
    for (uint32_t number = first; number < first + CALLS; number++)
        call(number, length);
    must(txc_commit(&site, txn, &receipt), TXC_DONE);
}

/* A copy that the compiler can't leave out, of as many sources in turn as there are keys. */
static void copy(uint32_t number, size_t length) {
    memcpy(value, sources[number % KEYS], length);
    __asm__ volatile("" : : "r"(value) : "memory");
}

static void measure_entries(uint32_t count, size_t length) {
    size_t before = held;
    for (uint32_t number = 0; number < count; number++)
        insert(number, length);
    printf("%.0f\n", (double)(held - before) / count - (double)length);
}

int main(int count, char **words) {
    if (count != 4)
        return 2;
    size_t length = strtoul(words[2], NULL, 10);
    uint32_t made = (uint32_t)strtoul(words[3], NULL, 10);
    txc_site_settings settings = TXC_SITE_SETTINGS;
    settings.renew_after = 1000;
    must(txc_node_open(&node, 65536, 64), TXC_DONE);
    must(txc_site_open(&site, &settings), TXC_DONE);
    if (!strcmp(words[1], "entries")) {
        measure_entries(made, length);
        return 0;
    }
    for (uint32_t number = 0; number < KEYS; number++) {
        insert(number, length);
        sources[number] = malloc(length);
        if (!sources[number])
            return 1;
        memcpy(sources[number], from, length);
    }
    show_page(0, length);
    must(computed, KEYS);
    for (uint32_t number = 0; number < made; number += strcmp(words[1], "site") ? 1 : CALLS) {
        if (!strcmp(words[1], "node"))
            look(number);
        else if (!strcmp(words[1], "site"))
            show_page(number, length);
        else
            copy(number, length);
    }
    must(computed, KEYS);
    return txc_node_close(&node) != TXC_DONE || txc_site_close(&site) != TXC_DONE;
}
