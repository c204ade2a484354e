/* Values of 1 byte to 256 KiB through one site that stores no events, within a budget of bytes: `soak SECONDS BUDGET`. scripts/soak_values.py compiles and
 * judges it.
 *
 * There are ITEMS rows, each with a number that counts its changes. A function gives bytes by the item and that number: as many as these say, and all by a
 * pattern. A page shows SHOWN items, half of them of a few; every fourth one changes an item. After each page the site is trimmed to the budget. A value is
 * wrong if any byte of it is not of the pattern, or if its number is not that of the receipt's stamp. Each second a line is printed: seconds, pages, wrong values,
 * calls, hits, entries, bytes, trimmed, most bytes between two trims, and what the process has in memory, in KB. */
#define _POSIX_C_SOURCE 200809L
#include "txc.h"
#include <stdio.h>
#include <stdlib.h>
#include <string.h>
#include <time.h>
#include <unistd.h>

enum { ITEMS = 8000, OFTEN = 1500, SHOWN = 8, AT_ONCE = 200, STALE = 40, RENEW = 10, KEEP_EVERY = 200, KEPT = 8, LONGEST = 256 * 1024, LONGEST_BITS = 18 };

static txc_site site = TXC_SITE_CLOSED;
static txc_txn txn;
static uint8_t value[LONGEST], made[LONGEST];
static uint64_t random_state = 88172645463325252u;
static unsigned long pages, wrong, calls, hits, trimmed;
static size_t most_bytes;
/* Of each item how often it was changed, and the stamps of its last changes. */
static uint32_t changes[ITEMS], since[ITEMS][KEPT];

static void must(uint32_t got, uint32_t wanted) {
    if (got != wanted) {
        printf("answered %u where %u was wanted, after %lu pages\n", got, wanted, pages);
        exit(1);
    }
}

static uint32_t chance(uint32_t most) {
    random_state ^= random_state << 13;
    random_state ^= random_state >> 7;
    random_state ^= random_state << 17;
    return (uint32_t)(random_state >> 11) % most;
}

static uint64_t mixed(uint64_t it) {
    it = (it ^ (it >> 31)) * 0x9E3779B97F4A7C15u;
    it = (it ^ (it >> 29)) * 0xBF58476D1CE4E5B9u;
    return it ^ (it >> 32);
}

/* How long the value of an item is after so many changes: to the greatest power of two in turn. */
static size_t length_of(uint32_t item, uint32_t number) {
    uint64_t of = mixed((uint64_t)item << 32 | number);
    return 1 + (size_t)((of >> 8) % (1u << (of % LONGEST_BITS + 1)));
}

static uint64_t pattern_of(uint32_t item, uint32_t number) { return mixed(((uint64_t)item << 32 | number) + 1); }

static size_t make(uint32_t item, uint32_t number) {
    size_t len = length_of(item, number);
    uint64_t pattern = pattern_of(item, number);
    for (size_t at = 0; at < len; at += sizeof pattern)
        memcpy(made + at, &pattern, len - at < sizeof pattern ? len - at : sizeof pattern);
    return len;
}

/* The number of the state that the transaction reads. */
static uint32_t read_number(uint32_t item) {
    uint32_t number = 0;
    size_t count, len;
    txc_row row;
    must(txc_query_rows(&site, txn, &(txc_query){1, TXC_ID, item, 0}, &count), TXC_ANSWERED);
    must(count, 1);
    must(txc_row_at(&site, txn, 0, &row, (uint8_t *)&number, sizeof number, &len), TXC_DONE);
    return number;
}

static size_t call(uint32_t item) {
    const txc_key key = {1, 1, {item}};
    size_t len;
    uint32_t got = txc_call(&site, txn, &key, value, sizeof value, &len);
    calls++;
    hits += got == TXC_DONE;
    if (got == TXC_COMPUTE)
        got = txc_finish(&site, txn, made, make(item, read_number(item)), value, sizeof value, &len);
    must(got, TXC_DONE);
    return len;
}

/* Whether the bytes are those of an item after so many changes. */
static bool is_of(uint32_t item, uint32_t number, size_t len) {
    uint64_t pattern = pattern_of(item, number);
    size_t most = len < sizeof pattern ? len : sizeof pattern;
    return len == length_of(item, number) && !memcmp(value, &pattern, most) && (len <= sizeof pattern || !memcmp(value, value + sizeof pattern, len - sizeof pattern));
}

/* For which of the item's last states the value is right: a bit for each, the newest first. Short values of two states may be the same. */
static uint32_t right_for(uint32_t item, size_t len) {
    uint32_t bits = 0;
    for (uint32_t back = 0; back < KEPT && back <= changes[item]; back++)
        bits |= (uint32_t)is_of(item, changes[item] - back, len) << back;
    return bits;
}

/* After how many changes the item was at a stamp. */
static uint32_t number_at(uint32_t item, uint32_t stamp) {
    uint32_t number = changes[item];
    while (number && since[item][number % KEPT] > stamp)
        number--;
    return number;
}

static void show_page(uint64_t now) {
    uint32_t items[SHOWN], right[SHOWN];
    txc_receipt receipt;
    must(txc_begin(&site, now, STALE, 0, &txn), TXC_DONE);
    for (int at = 0; at < SHOWN; at++) {
        items[at] = chance(at % 2 ? OFTEN : ITEMS);
        right[at] = right_for(items[at], call(items[at]));
    }
    must(txc_commit(&site, txn, &receipt), TXC_DONE);
    for (int at = 0; at < SHOWN; at++) {
        uint32_t back = changes[items[at]] - number_at(items[at], receipt.stamp);
        wrong += back >= KEPT || !(right[at] >> back & 1);
    }
    pages++;
}

static void put(uint32_t item, uint32_t number) {
    must(txc_put(&site, txn, 1, item, 0, (const uint8_t *)&number, sizeof number), TXC_DONE);
}

static void put_all(void) {
    uint32_t stamp;
    for (uint32_t first = 0; first < ITEMS; first += AT_ONCE) {
        must(txc_begin_write(&site, &txn), TXC_DONE);
        for (uint32_t item = first; item < first + AT_ONCE; item++)
            put(item, 0);
        must(txc_commit_write(&site, txn, &stamp), TXC_DONE);
    }
}

static void change(uint32_t item) {
    uint32_t stamp;
    must(txc_begin_write(&site, &txn), TXC_DONE);
    put(item, changes[item] + 1);
    must(txc_commit_write(&site, txn, &stamp), TXC_DONE);
    since[item][++changes[item] % KEPT] = stamp;
}

static void trim(size_t budget) {
    txc_totals totals;
    size_t dropped;
    must(txc_site_totals(&site, &totals), TXC_DONE);
    most_bytes = totals.bytes > most_bytes ? totals.bytes : most_bytes;
    must(txc_site_trim(&site, budget, &dropped), TXC_DONE);
    trimmed += dropped;
}

static double now_in_seconds(void) {
    struct timespec it;
    clock_gettime(CLOCK_MONOTONIC, &it);
    return (double)it.tv_sec + (double)it.tv_nsec / 1e9;
}

static void say(unsigned long second, size_t budget) {
    unsigned long kb = 0;
    txc_totals totals;
    FILE *file = fopen("/proc/self/statm", "r");
    if (!file || fscanf(file, "%*u %lu", &kb) != 1)
        exit(1);
    fclose(file);
    kb *= (unsigned long)sysconf(_SC_PAGESIZE) / 1024;
    must(txc_site_totals(&site, &totals), TXC_DONE);
    wrong += totals.bytes > budget || totals.trimmed != trimmed;
    printf("%lu %lu %lu %lu %lu %zu %zu %lu %zu %lu\n", second, pages, wrong, calls, hits, totals.entries, totals.bytes, trimmed, most_bytes, kb);
    fflush(stdout);
}

int main(int count, char **words) {
    if (count != 3)
        return 2;
    unsigned long seconds = strtoul(words[1], NULL, 10), said = 0;
    size_t budget = strtoul(words[2], NULL, 10);
    txc_site_settings settings = TXC_SITE_SETTINGS;
    settings.renew_after = RENEW;
    must(txc_site_open(&site, &settings), TXC_DONE);
    put_all();
    double begun = now_in_seconds();
    say(0, budget);
    while (said < seconds) {
        show_page(pages);
        if (pages % 4 == 0)
            change(chance(OFTEN));
        trim(budget);
        if (pages % KEEP_EVERY == 0) {
            txc_kept kept;
            must(txc_keep(&site, pages, STALE, &kept), TXC_DONE);
        }
        if (now_in_seconds() - begun >= (double)(said + 1))
            say(++said, budget);
    }
    must(txc_site_close(&site), TXC_DONE);
    return 0;
}
