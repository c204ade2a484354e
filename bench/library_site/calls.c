/* Calls of a site through the library for C: `calls KIND CAPACITY COUNT`, as src/main.rt.in makes them in Rattle. */
#include "txc.h"
#include <stdio.h>
#include <stdlib.h>
#include <string.h>

enum { ROWS = 1024, WRITTEN = 256, CALLS = 64 };

static txc_site site = TXC_SITE_CLOSED;
static txc_txn txn;
static uint8_t value[TXC_MAX_VALUE_LEN];

static void must(uint32_t got, uint32_t wanted) {
    if (got != wanted)
        exit(1);
}

static void write_rows(uint32_t first) {
    uint8_t body[16];
    uint32_t stamp;
    memset(body, 55, sizeof body);
    must(txc_begin_write(&site, &txn), TXC_DONE);
    for (uint32_t id = first; id < first + WRITTEN; id++)
        must(txc_put(&site, txn, 1, id, 0, body, sizeof body), TXC_DONE);
    must(txc_commit_write(&site, txn, &stamp), TXC_DONE);
}

/* The function of a call: it asks for one row, and gives its body. */
static uint32_t compute(uint32_t number, size_t *len) {
    const txc_query query = {1, TXC_ID, number * 2654435761u % ROWS, 0};
    uint8_t body[256];
    txc_row row;
    size_t count;
    must(txc_query_rows(&site, txn, &query, &count), TXC_ANSWERED);
    must(txc_row_at(&site, txn, 0, &row, body, sizeof body, len), TXC_DONE);
    return txc_finish(&site, txn, body, *len, value, sizeof value, len);
}

static uint32_t call(uint32_t number) {
    const txc_key key = {1, 1, {number}};
    size_t len;
    uint32_t came = txc_call(&site, txn, &key, value, sizeof value, &len);
    bool is_miss = came == TXC_COMPUTE;
    must(is_miss ? compute(number, &len) : came, TXC_DONE);
    return (uint32_t)len + is_miss;
}

static uint32_t page(bool is_hit, uint32_t first, uint32_t capacity) {
    txc_receipt receipt;
    uint32_t found = 0;
    must(txc_begin(&site, 0, 1000, 0, &txn), TXC_DONE);
    for (uint32_t number = first; number < first + CALLS; number++)
        found += call(is_hit ? number * 2654435761u % capacity : capacity + number);
    must(txc_commit(&site, txn, &receipt), TXC_DONE);
    return found + (uint32_t)receipt.answers;
}

int main(int words, char **word) {
    if (words != 4)
        return 2;
    uint32_t capacity = (uint32_t)strtoul(word[2], NULL, 10), count = (uint32_t)strtoul(word[3], NULL, 10), found = 0;
    txc_site_settings settings = {sizeof settings, 0, capacity, 64, 1000, 0, TXC_STORE_SQL};
    must(txc_site_open(&site, &settings), TXC_DONE);
    for (uint32_t part = 0; part < ROWS / WRITTEN; part++)
        write_rows(part * WRITTEN);
    for (uint32_t part = 0; part < capacity / CALLS; part++)
        page(false, part * CALLS, 0);
    for (uint32_t part = 0; part < count / CALLS; part++)
        found += page(!strcmp(word[1], "hit"), part * CALLS, capacity);
    printf("%u\n", found);
    return txc_site_close(&site) != TXC_DONE;
}
