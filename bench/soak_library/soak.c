/* Commits through one site that stores no events: `soak COMMITS EVERY ITEMS`. scripts/soak_library.py compiles and judges it.
 *
 * There are so many items, each a counter that stands in two rows. A page shows SHOWN of them, both rows by cached functions, and is torn where they
 * differ. Each round reads a page, and adds one to the first counter over the state of its receipt; in every fourth round somebody
 * else does so first, and then it is a conflict, and one is added over the newest state. Whenever so many commits were made a line is
 * printed: commits, pages, torn pages, calls, hits, conflicts, and what the process has in memory, in KB. The last line says the sum of
 * all counters, which is to be that of commits, and the last stamp. */
#include "txc.h"
#include <stdio.h>
#include <stdlib.h>
#include <string.h>
#include <unistd.h>

enum { SHOWN = 4, OFTEN = 64, AT_ONCE = 128, CAPACITY = 768, RECENT = 64, STALE = 40, RENEW = 10, KEEP_EVERY = 300, LONGEST = 16 };

static txc_site site = TXC_SITE_CLOSED;
static txc_txn txn;
static uint32_t items;
static unsigned long commits, pages, torn, calls, hits, conflicts;

static void must(uint32_t got, uint32_t wanted) {
    if (got != wanted) {
        printf("answered %u where %u was wanted, after %lu commits\n", got, wanted, commits);
        exit(1);
    }
}

/* The body of the row of the item in the function's table, as the function gives it. */
static size_t computed(uint8_t function, uint32_t item, uint8_t *bytes) {
    const txc_query query = {function, TXC_ID, item, 0};
    txc_row row;
    size_t count, len = 0;
    must(txc_query_rows(&site, txn, &query, &count), TXC_ANSWERED);
    if (count)
        must(txc_row_at(&site, txn, 0, &row, bytes, LONGEST, &len), TXC_DONE);
    return len;
}

/* The number that a function gives of an item, from the node or computed here. */
static unsigned long called(uint8_t function, uint32_t item) {
    const txc_key key = {function, 1, {item}};
    uint8_t value[LONGEST + 1], bytes[LONGEST];
    size_t len;
    uint32_t number = txc_call(&site, txn, &key, value, LONGEST, &len);
    calls++;
    hits += number == TXC_DONE;
    if (number == TXC_COMPUTE)
        number = txc_finish(&site, txn, bytes, computed(function, item, bytes), value, LONGEST, &len);
    must(number, TXC_DONE);
    value[len] = 0;
    return strtoul((char *)value, NULL, 10);
}

/* Which item is shown at that place of the page of a round: at the first any of them, at the others often the same. */
static uint32_t shown(unsigned long round, uint32_t place) {
    return ((uint32_t)(round + place) * 2654435761u >> 8) % (place ? OFTEN : items);
}

/* Reads the page of a round, and returns the stamp at which it is right. */
static uint32_t page(unsigned long round) {
    txc_receipt receipt;
    bool is_torn = false;
    must(txc_begin(&site, commits, STALE, 0, &txn), TXC_DONE);
    for (uint32_t place = 0; place < SHOWN; place++) {
        uint32_t item = shown(round, place);
        is_torn |= called(1, item) != called(2, item);
    }
    must(txc_commit(&site, txn, &receipt), TXC_DONE);
    torn += is_torn || receipt.answers != 2 * SHOWN || !receipt.has_pin;
    pages++;
    return receipt.stamp;
}

/* Puts the row of the item in a table, in the transaction that has begun. */
static void put(uint8_t table, uint32_t item, unsigned long count) {
    char body[LONGEST];
    int len = snprintf(body, sizeof body, "%lu", count);
    must(txc_put(&site, txn, table, item, 0, (uint8_t *)body, (size_t)len), TXC_DONE);
}

/* Puts all rows of a table, each with the count 0, in the order in which the store has them: another order takes time by the square of
 * their number. */
static void put_all(uint8_t table) {
    uint32_t stamp;
    for (uint32_t first = 0; first < items; first += AT_ONCE) {
        must(txc_begin_write(&site, &txn), TXC_DONE);
        for (uint32_t item = first; item < items && item < first + AT_ONCE; item++)
            put(table, item, 0);
        must(txc_commit_write(&site, txn, &stamp), TXC_DONE);
    }
}

/* Adds one to both rows of the item, in the transaction that has begun. */
static uint32_t add(uint32_t item) {
    uint32_t stamp;
    unsigned long count = called(1, item) + 1;
    put(1, item, count);
    put(2, item, count);
    uint32_t number = txc_commit_write(&site, txn, &stamp);
    commits += number == TXC_DONE;
    return number;
}

static void add_to_newest(uint32_t item) {
    must(txc_begin_write(&site, &txn), TXC_DONE);
    must(add(item), TXC_DONE);
}

static void play_round(unsigned long round) {
    uint32_t item = shown(round, 0), stamp = page(round);
    if (round % 4 == 0)
        add_to_newest(item);
    must(txc_begin_write_at(&site, stamp, &txn), TXC_DONE);
    uint32_t number = add(item);
    if (number == TXC_DONE)
        return;
    must(number, TXC_CONFLICT);
    must(txc_abort(&site, txn), TXC_DONE);
    conflicts++;
    add_to_newest(item);
}

/* The sum of all counters, and the stamp at which it is right. */
static unsigned long sum_of_all(uint32_t *stamp) {
    unsigned long sum = 0;
    txc_receipt receipt = {0};
    for (uint32_t first = 0; first < items; first += AT_ONCE) {
        must(txc_begin(&site, commits + STALE, 0, 0, &txn), TXC_DONE);
        for (uint32_t item = first; item < items && item < first + AT_ONCE; item++)
            sum += called(2, item);
        must(txc_commit(&site, txn, &receipt), TXC_DONE);
    }
    *stamp = receipt.stamp;
    return sum;
}

static void say(void) {
    unsigned long kb = 0;
    FILE *file = fopen("/proc/self/statm", "r");
    if (!file || fscanf(file, "%*u %lu", &kb) != 1)
        exit(1);
    fclose(file);
    kb *= (unsigned long)sysconf(_SC_PAGESIZE) / 1024;
    printf("%lu %lu %lu %lu %lu %lu %lu\n", commits, pages, torn, calls, hits, conflicts, kb);
    fflush(stdout);
}

int main(int count, char **words) {
    if (count != 4)
        return 2;
    items = (uint32_t)strtoul(words[3], NULL, 10);
    unsigned long wanted = strtoul(words[1], NULL, 10), every = strtoul(words[2], NULL, 10), kept = 0, said = 0;
    txc_site_settings settings = {sizeof settings, 0, CAPACITY, RECENT, RENEW, 0, TXC_STORE_SQL};
    must(txc_site_open(&site, &settings), TXC_DONE);
    put_all(1);
    put_all(2);
    for (unsigned long round = 0; commits < wanted; round++) {
        play_round(round);
        if (commits >= kept + KEEP_EVERY) {
            txc_kept of_keep;
            must(txc_keep(&site, commits, STALE, &of_keep), TXC_DONE);
            kept = commits;
        }
        if (commits >= said + every) {
            say();
            said = commits;
        }
    }
    uint32_t stamp;
    unsigned long sum = sum_of_all(&stamp);
    printf("sum %lu of %lu at %u\n", sum, commits, stamp);
    return txc_site_close(&site) != TXC_DONE;
}
