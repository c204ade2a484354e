/* Eight threads with pages whose functions sleep, beside one that writes: no page is torn, and none waits for another's function.
 *
 * Function 0 is the highest bid on an item, function 1 the list of its bids, and function 2 both of them. A mutex is held for each call of the library,
 * or for a query with its rows, and never while a function sleeps. */
#define _POSIX_C_SOURCE 200809L
#include <pthread.h>
#include <stdio.h>
#include <stdlib.h>
#include <string.h>
#include <time.h>
#include "txc.h"

enum { READERS = 8, PAGES = 100, ITEMS = 8, LONGEST = 512 };

static txc_site site = TXC_SITE_CLOSED;
static pthread_mutex_t lock = PTHREAD_MUTEX_INITIALIZER;
/* under the lock too */
static int computed, asleep, most_asleep;
static bool is_over;

static void take(void) { pthread_mutex_lock(&lock); }
static void leave(void) { pthread_mutex_unlock(&lock); }

static void must(bool is_so, const char *what) {
    if (!is_so) {
        fprintf(stderr, "it was not so: %s\n", what);
        exit(1);
    }
}

static uint64_t now(void) {
    struct timespec it;
    clock_gettime(CLOCK_MONOTONIC, &it);
    return (uint64_t)it.tv_sec * 1000 + (uint64_t)it.tv_nsec / 1000000;
}

static void rest(long milliseconds) { nanosleep(&(struct timespec){0, milliseconds * 1000000}, NULL); }

/* The work of a function beside its queries, for some milliseconds. */
static void work(void) {
    take();
    if (++asleep > most_asleep)
        most_asleep = asleep;
    leave();
    rest(5);
    take();
    asleep--;
    computed++;
    leave();
}

/* The highest bid of the group of an item, or the list of its bids. */
static size_t bids_of(txc_txn txn, uint32_t item, bool is_list, char *to) {
    size_t count, len = 0, got;
    unsigned most = 0;
    to[0] = 0;
    take();
    must(txc_query_rows(&site, txn, &(txc_query){1, TXC_GROUP, item, 0}, &count) == TXC_ANSWERED, "a query");
    for (size_t at = 0; at < count; at++) {
        txc_row row;
        char body[16] = {0};
        must(txc_row_at(&site, txn, at, &row, (uint8_t *)body, sizeof body - 1, &got) == TXC_DONE, "a row");
        most = (unsigned)atoi(body) > most ? (unsigned)atoi(body) : most;
        len += (size_t)sprintf(to + len, at ? ",%s" : "%s", body);
    }
    leave();
    return is_list ? len : (size_t)sprintf(to, "%u", most);
}

/* The value of a call: from the node, or computed here. */
static void call(txc_txn txn, uint8_t function, uint32_t item, char *value) {
    txc_key key = {function, 1, {item}};
    size_t len;
    take();
    uint32_t number = txc_call(&site, txn, &key, (uint8_t *)value, LONGEST - 1, &len);
    leave();
    if (number == TXC_COMPUTE) {
        char made[2 * LONGEST + 4], most[LONGEST], list[LONGEST];
        if (function == 2) {
            call(txn, 0, item, most);
            call(txn, 1, item, list);
            sprintf(made, "%s of %s", most, list);
        } else {
            bids_of(txn, item, function == 1, made);
        }
        work();
        take();
        number = txc_finish(&site, txn, (uint8_t *)made, strlen(made), (uint8_t *)value, LONGEST - 1, &len);
        leave();
    }
    must(number == TXC_DONE || number == TXC_ANSWERED, "a call");
    value[len] = 0;
}

/* A page shows the highest bid, and beside it the bids. It is torn if they are of two moments. */
static bool is_torn(uint32_t item) {
    char both[LONGEST], alone[LONGEST];
    unsigned most = 0;
    txc_txn txn;
    txc_receipt receipt;
    take();
    must(txc_begin(&site, now(), 50, 0, &txn) == TXC_DONE, "a page begins");
    leave();
    call(txn, 2, item, both);
    call(txn, 0, item, alone);
    take();
    must(txc_commit(&site, txn, &receipt) == TXC_DONE && receipt.answers == 2, "a page ends");
    leave();
    for (char *bid = strstr(both, " of ") + strlen(" of "); bid; bid = strchr(bid, ',') ? strchr(bid, ',') + 1 : NULL)
        most = (unsigned)atoi(bid) > most ? (unsigned)atoi(bid) : most;
    return (unsigned)atoi(both) != most || (unsigned)atoi(alone) != most;
}

static void *read_pages(void *of) {
    size_t reader = (size_t)of, torn = 0;
    for (size_t page = 0; page < PAGES; page++) {
        torn += is_torn((uint32_t)((reader + page) % ITEMS));
        rest(1);
    }
    return (void *)torn;
}

static void bid(uint32_t amount) {
    char text[16];
    size_t len = (size_t)sprintf(text, "%u", amount);
    txc_txn txn;
    uint32_t stamp;
    take();
    must(txc_begin_write(&site, &txn) == TXC_DONE, "an update begins");
    must(txc_put(&site, txn, 1, amount % (16 * ITEMS), amount % ITEMS, (uint8_t *)text, len) == TXC_DONE, "a change");
    must(txc_commit_write(&site, txn, &stamp) == TXC_DONE, "an update ends");
    leave();
}

/* Bids until the readers have ended, and counts the bids, and those while some function slept. */
static void *write_bids(void *counts) {
    txc_kept kept;
    for (uint32_t amount = ITEMS;; amount++) {
        bid(amount);
        take();
        ((int *)counts)[0]++;
        ((int *)counts)[1] += asleep > 0;
        if (amount % 64 == 0)
            must(txc_keep(&site, now(), 2000, &kept) == TXC_DONE, "a keep");
        bool is_last = is_over;
        leave();
        if (is_last)
            return NULL;
        rest(1);
    }
}

int main(void) {
    pthread_t readers[READERS], writer;
    txc_site_settings settings = TXC_SITE_SETTINGS;
    int bids[2] = {0, 0};
    size_t torn = 0, open;
    void *found;
    settings.renew_after = 10;
    must(txc_site_open(&site, &settings) == TXC_DONE, "a site");
    for (uint32_t item = 0; item < ITEMS; item++)
        bid(item);
    must(!pthread_create(&writer, NULL, write_bids, bids), "a thread");
    for (size_t at = 0; at < READERS; at++)
        must(!pthread_create(&readers[at], NULL, read_pages, (void *)at), "a thread");
    for (size_t at = 0; at < READERS; at++) {
        pthread_join(readers[at], &found);
        torn += (size_t)found;
    }
    take();
    is_over = true;
    leave();
    pthread_join(writer, NULL);
    printf("%d pages, %zu torn; %d functions slept, up to %d at once\n", READERS * PAGES, torn, computed, most_asleep);
    printf("%d commits, %d of them while functions slept\n", bids[0], bids[1]);
    must(!torn && most_asleep > 1 && bids[1] > 0, "none torn, and none waits");
    must(txc_open_transactions(&site, &open) == TXC_DONE && open == 0 && txc_site_close(&site) == TXC_DONE, "a close");
    return 0;
}
