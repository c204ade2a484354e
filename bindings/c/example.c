/* A page of two cached results that a plain cache would tear: the highest bid, and the list of bids, of one moment. */
#include "txc.h"
#include <stdio.h>
#include <string.h>

enum { ITEM = 7, HIGHEST = 1, BIDS = 2, MOST = 16, LONGEST = 256 };

/* A database of one's own: how many bids there were after each event, and the bids, the newest last. */
static unsigned bids[MOST], bid_count[MOST];
static uint32_t newest;

static const txc_tag BIDS_OF_ITEM = {2, TXC_GROUP, ITEM};

/* A bid comes in: an event, of which the node is told. */
static uint32_t bid(txc_node *node, unsigned price) {
    size_t closed;
    uint32_t processed;
    bids[bid_count[newest]] = price;
    bid_count[newest + 1] = bid_count[newest] + 1;
    newest++;
    return txc_node_event(node, newest, &BIDS_OF_ITEM, 1, &closed, &processed);
}

/* The result of a function at a stamp, without a cache. */
static void compute(uint8_t function, uint32_t stamp, char *text, size_t room) {
    unsigned count = bid_count[stamp];
    size_t len = 0;
    text[0] = 0;
    for (unsigned n = count; n > (function == HIGHEST ? count - 1 : 0); n--)
        len += (size_t)snprintf(text + len, room - len, n == count ? "%u" : ",%u", bids[n - 1]);
}

/* The value of a call at a stamp of the range, from the node or computed at its last stamp; and where it holds. */
static uint32_t cached(txc_node *node, uint8_t function, txc_reach *range, char *text) {
    const txc_key key = {function, 1, {ITEM}};
    uint8_t value[LONGEST];
    txc_reach reach;
    txc_stored stored;
    size_t len;
    uint32_t number = txc_node_lookup(node, &key, range->lo, range->known, &reach, value, sizeof value, &len);
    if (number == TXC_DONE) {
        memcpy(text, value, len);
        text[len] = 0;
    } else if (number == TXC_MISS) {
        reach = (txc_reach){range->known, range->known, true};
        compute(function, range->known, text, LONGEST);
        number = txc_node_insert(node, &key, &reach, &BIDS_OF_ITEM, 1, (const uint8_t *)text, strlen(text), &stored);
    }
    if (number != TXC_DONE)
        return number;
    if (reach.lo > range->lo)
        range->lo = reach.lo;
    if (reach.known < range->known)
        range->known = reach.known;
    return TXC_DONE;
}

/* Both results at one stamp: the second is asked for where the first holds. */
static uint32_t page(txc_node *node, uint32_t oldest) {
    char highest[LONGEST + 1], all[LONGEST + 1];
    txc_reach range = {oldest, newest, true};
    uint32_t number = cached(node, HIGHEST, &range, highest);
    if (number == TXC_DONE)
        number = cached(node, BIDS, &range, all);
    if (number == TXC_DONE)
        printf("highest %s, bids %s\n", highest, all);
    return number;
}

int main(void) {
    txc_node node = TXC_NODE_CLOSED;
    uint32_t number = txc_node_open(&node, 1024, 64);
    if (number == TXC_DONE)
        number = bid(&node, 110);
    if (number == TXC_DONE)
        number = page(&node, 1);
    if (number == TXC_DONE)
        number = bid(&node, 130);
    if (number == TXC_DONE)
        number = page(&node, 1);        /* may be of stamp 1: both are of it */
    if (number == TXC_DONE)
        number = page(&node, 2);        /* may not: both are of stamp 2 */
    if (number != TXC_DONE)
        printf("refused %u\n", number);
    txc_node_close(&node);
    return number != TXC_DONE;
}
