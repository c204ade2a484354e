/* A page that would be torn, and is not: two results of one database, one of which a cache has from before.
 *
 * Function 0 is the highest bid on an item, function 1 the list of its bids. Both read the rows of a group of table 1. */
#include <stdio.h>
#include <stdlib.h>
#include <string.h>
#include "txc.h"

static txc_site site = TXC_SITE_CLOSED;
static txc_txn txn;

static void must(uint32_t got, uint32_t wanted) {
    if (got != wanted) {
        fprintf(stderr, "answered %u where %u was wanted\n", got, wanted);
        exit(1);
    }
}

/* The results of the functions, of the rows that were found. */
static size_t computed(uint8_t function, size_t count, char *to) {
    unsigned most = 0;
    size_t len = 0;
    to[0] = 0;
    for (size_t at = 0; at < count; at++) {
        txc_row row;
        char body[16] = {0};
        size_t got;
        must(txc_row_at(&site, txn, at, &row, (uint8_t *)body, sizeof body - 1, &got), TXC_DONE);
        if ((unsigned)atoi(body) > most) {
            most = (unsigned)atoi(body);
        }
        len += (size_t)sprintf(to + len, at ? ",%s" : "%s", body);
    }
    return function ? len : (size_t)sprintf(to, "%u", most);
}

/* The value of a call: from the node, or computed here. */
static const char *call(uint8_t function, uint32_t item, char *value) {
    txc_key key = {function, 1, {item}};
    size_t len, count;
    uint32_t number = txc_call(&site, txn, &key, (uint8_t *)value, 255, &len);
    if (number == TXC_COMPUTE) {
        txc_query query = {1, TXC_GROUP, item, 0};
        char bytes[256];
        must(txc_query_rows(&site, txn, &query, &count), TXC_ANSWERED);
        size_t given = computed(function, count, bytes);
        number = txc_finish(&site, txn, (uint8_t *)bytes, given, (uint8_t *)value, 255, &len);
    }
    must(number, TXC_DONE);
    value[len] = 0;
    return value;
}

static void bid(uint32_t id, const char *amount) {
    uint32_t stamp;
    must(txc_begin_write(&site, &txn), TXC_DONE);
    must(txc_put(&site, txn, 1, id, 7, (const uint8_t *)amount, strlen(amount)), TXC_DONE);
    must(txc_commit_write(&site, txn, &stamp), TXC_DONE);
}

static void page(uint64_t now, int both) {
    char one[256], other[256] = "-";
    txc_receipt receipt;
    must(txc_begin(&site, now, 30000, 0, &txn), TXC_DONE);
    call(0, 7, one);
    if (both) {
        call(1, 7, other);
    }
    must(txc_commit(&site, txn, &receipt), TXC_DONE);
    printf("highest %s, bids %s, at stamp %u\n", one, other, receipt.stamp);
}

int main(void) {
    txc_site_settings settings = TXC_SITE_SETTINGS; /* with no bound on its events */
    settings.capacity = 100;
    settings.renew_after = 20000;
    must(txc_site_open(&site, &settings), TXC_DONE);
    bid(1, "110");
    page(1000, 0); /* the node keeps the highest bid alone */
    bid(2, "130");
    page(2000, 1); /* the node has the highest bid of before: so the bids are those of before too */
    page(40000, 1); /* a new pin: both are of now */
    must(txc_site_close(&site), TXC_DONE);
    return 0;
}
