/* Odd uses of a site with many transactions open, each with what must come of it: numbers that are open no more, or of another site; keeps and
 * closes beside what is open; as many as may be; pins that are full. Prints how many there are. */
#include "odd.h"

static const txc_key BIDS = {0, 1, {7}};
static const txc_query GROUP = {1, TXC_GROUP, 7, 0};

static uint8_t value[TXC_MAX_VALUE_LEN], body[256];
static const uint8_t too_long[TXC_MAX_BODY_LEN + 1];
static size_t len, count;
static txc_row row;
static txc_receipt receipt;
static uint32_t stamp;
static uint64_t moment;
static txc_kept kept;

static void open_site(txc_site *site, size_t events) {
    *site = (txc_site)TXC_SITE_CLOSED;
    CHECK(txc_site_open(site, &(txc_site_settings){sizeof(txc_site_settings), events, 0, 0, 30000, 0, TXC_STORE_SQL}) == TXC_DONE);
}

static uint32_t call(txc_site *site, txc_txn txn, const txc_key *key) { return txc_call(site, txn, key, value, sizeof value, &len); }
static uint32_t rows(txc_site *site, txc_txn txn) { return txc_query_rows(site, txn, &GROUP, &count); }
static uint32_t row_at(txc_site *site, txc_txn txn, size_t at) { return txc_row_at(site, txn, at, &row, body, sizeof body, &len); }
static uint32_t put(txc_site *site, txc_txn txn, uint32_t id, const char *text) { return txc_put(site, txn, 1, id, 7, (const uint8_t *)text, strlen(text)); }
static uint32_t finish(txc_site *site, txc_txn txn, const char *text) {
    return txc_finish(site, txn, (const uint8_t *)text, strlen(text), value, sizeof value, &len);
}

static txc_txn begin(txc_site *site, uint64_t now) {
    txc_txn txn = 0;
    CHECK(txc_begin(site, now, 30000, 0, &txn) == TXC_DONE && txn);
    return txn;
}

static txc_txn begin_write(txc_site *site) {
    txc_txn txn = 0;
    CHECK(txc_begin_write(site, &txn) == TXC_DONE && txn);
    return txn;
}

static uint32_t bid(txc_site *site, uint32_t id, const char *amount) {
    txc_txn txn = begin_write(site);
    CHECK(put(site, txn, id, amount) == TXC_DONE && txc_commit_write(site, txn, &stamp) == TXC_DONE);
    return stamp;
}

static bool is_open(txc_site *site, size_t wanted, txc_txn first) {
    txc_txn oldest = 0;
    return txc_open_transactions(site, &count) == TXC_DONE && count == wanted
        && txc_oldest_open(site, &oldest) == (wanted ? TXC_DONE : TXC_MISS) && oldest == (wanted ? first : 0);
}

/* ---- numbers */

/* Nothing is asked of a number that is not open, and nothing is written. */
static void try_stale(txc_site *site, txc_txn txn) {
    len = count = stamp = 77;
    moment = receipt.answers = 77;
    CHECK(call(site, txn, &BIDS) == TXC_NOT_OPEN && rows(site, txn) == TXC_NOT_OPEN && row_at(site, txn, 0) == TXC_NOT_OPEN);
    CHECK(txc_answer(site, txn, value, 8, &len) == TXC_NOT_OPEN && finish(site, txn, "1") == TXC_NOT_OPEN && txc_give_up(site, txn) == TXC_NOT_OPEN);
    CHECK(txc_read_stamp(site, txn, &stamp) == TXC_NOT_OPEN && txc_member_at(site, txn, 0, &stamp, &moment) == TXC_NOT_OPEN);
    CHECK(txc_commit(site, txn, &receipt) == TXC_NOT_OPEN && txc_commit_write(site, txn, &stamp) == TXC_NOT_OPEN);
    CHECK(put(site, txn, 1, "1") == TXC_NOT_OPEN && txc_remove(site, txn, 1, 1) == TXC_NOT_OPEN && txc_abort(site, txn) == TXC_NOT_OPEN);
    CHECK(len == 77 && count == 77 && stamp == 77 && moment == 77 && receipt.answers == 77);
    CHECK(put(site, txn, 1, "") == TXC_NOT_OPEN && txc_put(site, txn, 1, 1, 7, too_long, sizeof too_long) == TXC_BAD_ARGUMENT);
    CHECK(txc_query_rows(site, txn, &(txc_query){1, 4, 0, 0}, &count) == TXC_BAD_ARGUMENT);
}

static void try_numbers(size_t events) {
    txc_site site, other;
    open_site(&site, events);
    open_site(&other, events);
    try_stale(&site, 0);
    try_stale(&site, 1);
    txc_txn last = 0;
    for (int at = 0; at < 6; at++) {
        txc_txn txn = at % 2 ? begin_write(&site) : begin(&site, 1000);
        CHECK(txn > last && is_open(&site, 1, txn));
        try_stale(&other, txn);
        uint32_t ended = at < 2 ? txc_abort(&site, txn) : at % 2 ? txc_commit_write(&site, txn, &stamp) : txc_commit(&site, txn, &receipt);
        CHECK(ended == TXC_DONE && is_open(&site, 0, 0));
        try_stale(&site, txn);
        if (last)
            try_stale(&site, last);
        last = txn;
    }
    txc_txn first = begin(&site, 1000), second = begin_write(&site);
    for (txc_txn near = second - 1; near <= second + 70000; near += near == second - 1 ? 2 : 65534)
        if (near != first)
            try_stale(&site, near);
    try_stale(&site, UINT64_MAX);
    CHECK(is_open(&site, 2, first) && txc_abort(&site, first) == TXC_DONE && is_open(&site, 1, second));
    CHECK(txc_site_close(&site) == TXC_DONE);
    try_stale(&other, second);
    open_site(&site, events);
    try_stale(&site, second);
    CHECK(txc_site_close(&site) == TXC_DONE && txc_site_close(&other) == TXC_DONE);
}

/* ---- apart */

/* What one is answered stays while another is asked, in mid-call too. */
static void try_apart(size_t events) {
    txc_site site;
    open_site(&site, events);
    CHECK(bid(&site, 1, "110") == 1);
    txc_txn reader = begin(&site, 1000), writer = begin_write(&site);
    CHECK(call(&site, reader, &BIDS) == TXC_COMPUTE && rows(&site, reader) == TXC_ANSWERED && count == 1);
    CHECK(call(&site, writer, &BIDS) == TXC_COMPUTE && rows(&site, writer) == TXC_ANSWERED && finish(&site, writer, "w") == TXC_DONE);
    bid(&site, 2, "130");
    CHECK(row_at(&site, reader, 0) == TXC_DONE && !memcmp(body, "110", 3) && row_at(&site, reader, 1) == TXC_MISS);
    CHECK(txc_answer(&site, writer, value, 8, &len) == TXC_DONE && len == 1 && *value == 'w');
    CHECK(txc_answer(&site, reader, value, 8, &len) == TXC_ANSWERED && len == 1 && finish(&site, writer, "1") == TXC_NOT_OPEN);
    CHECK(txc_keep(&site, 1000, 0, &kept) == TXC_DONE && kept.retired == 0 && rows(&site, reader) == TXC_ANSWERED && count == 1);
    CHECK(finish(&site, reader, "r") == TXC_DONE && txc_commit(&site, reader, &receipt) == TXC_DONE && receipt.answers == 1);
    CHECK(put(&site, writer, 3, "150") == TXC_DONE && txc_commit_write(&site, writer, &stamp) == TXC_CONFLICT && txc_abort(&site, writer) == TXC_DONE);
    CHECK(txc_keep(&site, 90000, 0, &kept) == TXC_DONE && kept.retired == 1 && txc_site_close(&site) == TXC_DONE);
}

/* A keep lets stay what one reads that writes over the newest state, and lets go what nobody holds. */
static void try_holds(size_t events) {
    txc_site site;
    txc_txn loose = 0;
    open_site(&site, events);
    CHECK(bid(&site, 1, "110") == 1);
    txc_txn held = begin_write(&site);
    CHECK(txc_begin_write_at(&site, 1, &loose) == TXC_DONE && txc_read_stamp(&site, loose, &stamp) == TXC_DONE && stamp == 1);
    CHECK(bid(&site, 2, "120") == 2 && txc_keep(&site, 0, 0, &kept) == TXC_DONE && kept.horizon == 1);
    CHECK(rows(&site, held) == TXC_ANSWERED && count == 1 && rows(&site, loose) == TXC_ANSWERED && count == 1);
    CHECK(txc_read_stamp(&site, held, &stamp) == TXC_DONE && stamp == 1 && txc_abort(&site, held) == TXC_DONE);
    CHECK(txc_keep(&site, 0, 0, &kept) == TXC_DONE && kept.horizon == 2 && rows(&site, loose) == TXC_REFUSED);
    CHECK(put(&site, loose, 3, "1") == TXC_DONE && txc_commit_write(&site, loose, &stamp) != TXC_DONE && txc_abort(&site, loose) == TXC_DONE);
    CHECK(txc_site_close(&site) == TXC_DONE);
}

/* ---- many */

enum { HUNDRED = 100 };

static void try_hundred(size_t events) {
    static txc_txn open[HUNDRED];
    txc_site site;
    open_site(&site, events);
    CHECK(bid(&site, 1, "110") == 1);
    for (int at = 0; at < HUNDRED; at++) {
        open[at] = at % 3 ? begin(&site, 1000) : begin_write(&site);
        CHECK(call(&site, open[at], &BIDS) == TXC_COMPUTE && rows(&site, open[at]) == TXC_ANSWERED && count == 1);
    }
    bid(&site, 2, "130");
    CHECK(txc_keep(&site, 1000, 0, &kept) == TXC_DONE && kept.retired == 0 && is_open(&site, HUNDRED, *open));
    for (int at = HUNDRED / 2; at-- > 0;) {
        CHECK(row_at(&site, open[at], 0) == TXC_DONE && rows(&site, open[at]) == TXC_ANSWERED && count == 1);
        CHECK(finish(&site, open[at], "110") == TXC_DONE && len == 3);
        CHECK((at % 3 ? txc_commit(&site, open[at], &receipt) : txc_abort(&site, open[at])) == TXC_DONE);
    }
    CHECK(is_open(&site, HUNDRED / 2, open[HUNDRED / 2]) && txc_site_close(&site) == TXC_DONE && !site.is_open);
    CHECK(txc_abort(&site, open[HUNDRED - 1]) == TXC_CLOSED);
}

/* As many as may be open, which all write. */
static void try_most(size_t events) {
    static txc_txn open[TXC_MAX_OPEN];
    txc_site site;
    txc_txn none = 77;
    open_site(&site, events);
    CHECK(bid(&site, 1, "110") == 1);
    long given = 0;
    for (size_t at = 0; at < TXC_MAX_OPEN; at++)
        given += txc_begin_write(&site, &open[at]) == TXC_DONE && (!at || open[at] > open[at - 1]);
    CHECK(given == TXC_MAX_OPEN && is_open(&site, TXC_MAX_OPEN, *open));
    CHECK(txc_begin_write(&site, &none) == TXC_REFUSED && none == 77 && txc_begin_write_at(&site, 1, &none) == TXC_REFUSED && none == 77);
    CHECK(txc_begin(&site, 0, 0, 0, &none) == TXC_REFUSED && none == 77 && txc_begin(&site, 0, 0, UINT32_MAX, &none) == TXC_BAD_ARGUMENT);
    CHECK(txc_abort(&site, open[7]) == TXC_DONE && txc_begin(&site, 0, 0, 0, &none) == TXC_DONE && none > open[TXC_MAX_OPEN - 1]);
    try_stale(&site, open[7]);
    CHECK(put(&site, open[9], 2, "120") == TXC_DONE && txc_commit_write(&site, open[9], &stamp) == TXC_DONE && stamp == 2);
    CHECK(rows(&site, open[11]) == TXC_ANSWERED && count == 1 && put(&site, open[11], 3, "130") == TXC_DONE);
    CHECK(txc_commit_write(&site, open[11], &stamp) == TXC_CONFLICT && txc_keep(&site, 0, 0, &kept) == TXC_DONE && kept.horizon == 1);
    for (size_t at = 0; at < TXC_MAX_OPEN; at++)
        given -= at == 7 || at == 9 || txc_abort(&site, open[at]) == TXC_DONE;
    CHECK(!given && is_open(&site, 1, none) && txc_keep(&site, 0, 0, &kept) == TXC_DONE && kept.horizon == 2);
    CHECK(txc_site_close(&site) == TXC_DONE);
}

/* As many states are held as may be, by a pin and by those that write over the newest one. What holds none may begin still. */
static void try_most_holds(size_t events) {
    static txc_txn open[TXC_MAX_OPEN - 1];
    txc_site site;
    txc_txn none = 77;
    open_site(&site, events);
    CHECK(bid(&site, 1, "110") == 1 && txc_pin(&site, 1000, &stamp) == TXC_DONE && stamp == 2);
    long given = 0;
    for (size_t at = 0; at < TXC_MAX_OPEN - 1; at++)
        given += txc_begin_write(&site, &open[at]) == TXC_DONE;
    CHECK(given == TXC_MAX_OPEN - 1 && txc_begin_write(&site, &none) == TXC_REFUSED && none == 77);
    CHECK(txc_pin(&site, 1001, &stamp) == TXC_REFUSED && stamp == 2 && is_open(&site, TXC_MAX_OPEN - 1, *open));
    CHECK(txc_begin_write_at(&site, 2, &none) == TXC_DONE && none > open[TXC_MAX_OPEN - 2] && rows(&site, none) == TXC_ANSWERED && count == 1);
    CHECK(txc_abort(&site, none) == TXC_DONE && txc_begin(&site, 90000, 0, 0, &none) == TXC_DONE);
    CHECK(call(&site, none, &BIDS) == TXC_REFUSED && finish(&site, none, "1") == TXC_NOT_OPEN && txc_abort(&site, none) == TXC_DONE);
    txc_txn pinned = begin(&site, 1000);
    CHECK(call(&site, pinned, &BIDS) == TXC_COMPUTE && rows(&site, pinned) == TXC_ANSWERED && count == 1 && finish(&site, pinned, "110") == TXC_DONE);
    CHECK(txc_commit(&site, pinned, &receipt) == TXC_DONE && receipt.stamp == 2 && txc_abort(&site, *open) == TXC_DONE);
    CHECK(txc_begin_write(&site, &none) == TXC_DONE && txc_begin_write(&site, open) == TXC_REFUSED && txc_abort(&site, none) == TXC_DONE);
    CHECK(txc_pin(&site, 1001, &stamp) == TXC_DONE && stamp == 3 && txc_begin_write(&site, open) == TXC_REFUSED && txc_site_close(&site) == TXC_DONE);
}

/* ---- asks of a call */

/* The first call asks 63 others, each of which asks 63 times and gives its value; so of 4,096 there is one ask left for the last. */
static void try_asks(size_t events, bool is_writing) {
    txc_site site;
    open_site(&site, events);
    CHECK(bid(&site, 1, "110") == 1);
    txc_txn txn = is_writing ? begin_write(&site) : begin(&site, 1000);
    CHECK(call(&site, txn, &(txc_key){2, 0, {0}}) == TXC_COMPUTE);
    long asked = 0;
    for (uint32_t at = 0; at < 63; at++) {
        asked += call(&site, txn, &(txc_key){1, 1, {at}}) == TXC_COMPUTE;
        for (int query = 0; query < 63; query++)
            asked += rows(&site, txn) == TXC_ANSWERED;
        CHECK(finish(&site, txn, "1") == TXC_ANSWERED);
    }
    CHECK(asked == 63 * 64 && call(&site, txn, &(txc_key){1, 1, {63}}) == TXC_COMPUTE);
    CHECK(rows(&site, txn) == TXC_REFUSED && finish(&site, txn, "1") == TXC_NOT_OPEN && txc_give_up(&site, txn) == TXC_MISS);
    for (uint32_t last = 0; last < 2; last++) {
        CHECK(call(&site, txn, &(txc_key){1, 1, {70 + last}}) == TXC_COMPUTE);
        for (int query = 0; query < TXC_MAX_ASKS; query++)
            asked += rows(&site, txn) == TXC_ANSWERED;
        CHECK((last ? finish(&site, txn, "1") : rows(&site, txn)) == TXC_REFUSED && txc_give_up(&site, txn) == TXC_MISS);
    }
    CHECK(asked == 63 * 64 + 2 * TXC_MAX_ASKS && finish(&site, txn, "1") == TXC_NOT_OPEN);
    CHECK((is_writing ? txc_commit_write(&site, txn, &stamp) : txc_commit(&site, txn, &receipt)) == TXC_DONE);
    CHECK((is_writing || receipt.answers == 0) && txc_site_close(&site) == TXC_DONE);
}

/* ---- pins */

static void try_pins(size_t events) {
    txc_site site;
    uint32_t pinned[3] = {0};
    open_site(&site, events);
    CHECK(bid(&site, 1, "110") == 1);
    txc_txn early = begin(&site, 3000);
    for (int at = 0; at < 3; at++)
        CHECK(txc_pin(&site, 1000 + (uint64_t)at, &pinned[at]) == TXC_DONE && pinned[at] == 2 + (uint32_t)at);
    txc_txn txn = begin(&site, 2000);
    for (int at = 0; at < 3; at++)
        CHECK(txc_member_at(&site, txn, (size_t)at, &stamp, &moment) == TXC_DONE && stamp == pinned[2 - at] && moment == 1002 - (uint64_t)at);
    stamp = 77;
    CHECK(txc_member_at(&site, txn, 3, &stamp, &moment) == TXC_MISS && txc_member_at(&site, txn, SIZE_MAX, &stamp, &moment) == TXC_MISS && stamp == 77);
    CHECK(txc_member_at(&site, early, 0, &stamp, &moment) == TXC_MISS && txc_read_stamp(&site, early, &stamp) == TXC_MISS && stamp == 77);
    CHECK(txc_read_stamp(&site, txn, &stamp) == TXC_DONE && stamp == pinned[2]);
    bid(&site, 2, "130");
    CHECK(call(&site, txn, &BIDS) == TXC_COMPUTE && rows(&site, txn) == TXC_ANSWERED && count == 1 && finish(&site, txn, "110") == TXC_DONE);
    CHECK(txc_keep(&site, 9000, 0, &kept) == TXC_DONE && kept.retired == 0 && kept.horizon == pinned[0]);
    CHECK(txc_commit(&site, txn, &receipt) == TXC_DONE && receipt.stamp == pinned[2] && receipt.moment == 1002);
    CHECK(txc_keep(&site, 9000, 8000, &kept) == TXC_DONE && kept.retired == 0 && txc_keep(&site, 9002, 8000, &kept) == TXC_DONE && kept.retired == 2);
    CHECK(txc_site_close(&site) == TXC_DONE);
}

/* A pin that the pincushion refuses holds nothing. */
static void try_full_pins(size_t events) {
    txc_site site;
    open_site(&site, events);
    for (uint64_t at = 0; at < 1024; at++)
        CHECK(txc_pin(&site, at, &stamp) == TXC_DONE);
    CHECK(stamp == 1024 && txc_pin(&site, 1024, &stamp) == TXC_REFUSED && stamp == 1024);
    uint32_t newest = bid(&site, 1, "110");
    CHECK(txc_keep(&site, 5000, 0, &kept) == TXC_DONE && kept.retired == 1024 && kept.horizon == newest);
    CHECK(txc_pin(&site, 1024, &stamp) == TXC_DONE && stamp == newest + 1 && txc_site_close(&site) == TXC_DONE);
}

/* ---- allocations that are refused */

/* Three that are open side by side, as far as memory is at hand. What is refused leaves the others as they are. */
static bool are_whole(size_t events) {
    txc_site site = TXC_SITE_CLOSED;
    txc_txn reader = 0, writer = 0, other = 0;
    bool is_whole = txc_site_open(&site, &(txc_site_settings){sizeof(txc_site_settings), events, 8, 8, 30000, 0, TXC_STORE_SQL}) == TXC_DONE
        && txc_begin_write(&site, &writer) == TXC_DONE && put(&site, writer, 1, "110") == TXC_DONE && txc_pin(&site, 900, &stamp) == TXC_DONE
        && txc_begin(&site, 1000, 30000, 0, &reader) == TXC_DONE && call(&site, reader, &(txc_key){1, 1, {7}}) == TXC_COMPUTE
        && txc_begin_write(&site, &other) == TXC_DONE && rows(&site, reader) == TXC_ANSWERED && count == 0
        && txc_commit_write(&site, writer, &stamp) == TXC_DONE && call(&site, reader, &BIDS) == TXC_COMPUTE && rows(&site, reader) == TXC_ANSWERED
        && finish(&site, reader, "") == TXC_ANSWERED && call(&site, other, &BIDS) == TXC_COMPUTE && rows(&site, other) == TXC_ANSWERED
        && txc_keep(&site, 1000, 0, &kept) == TXC_DONE && finish(&site, other, "-") == TXC_DONE && finish(&site, reader, "none") == TXC_DONE
        && put(&site, other, 2, "130") == TXC_DONE && txc_commit_write(&site, other, &stamp) == TXC_CONFLICT && txc_abort(&site, other) == TXC_DONE
        && txc_commit(&site, reader, &receipt) == TXC_DONE && receipt.answers == 1 && receipt.moment == 900;
    txc_site_close(&site);
    return is_whole && !site.is_open;
}

int main(void) {
    long refused = 0;
    for (size_t events = 0; events <= TXC_MAX_EVENTS; events += TXC_MAX_EVENTS) {
        try_numbers(events);
        try_apart(events);
        try_holds(events);
        try_hundred(events);
        try_most(events);
        try_most_holds(events);
        try_asks(events, false);
        try_asks(events, true);
        try_pins(events);
        try_full_pins(events);
        long of_many = refuse_each(are_whole, events ? 64 : 0);
        CHECK(of_many > 0);
        refused += of_many;
    }
    printf("%d odd uses of many transactions, %d wrong; %ld allocations of three side by side, each refused in its turn\n", uses, wrong, refused);
    return wrong != 0;
}
