/* Odd uses of a site, each with what must come of it, and updates that must not be lost, where events are stored and where they are
 * not, over either store of rows; and a page and an update with every allocation refused in its turn. Prints how many there are. */
#include "odd.h"

/* ---- odd uses */

static const txc_key HIGHEST = {0, 1, {7}};
static const txc_key BIDS = {1, 1, {7}};
static const txc_query GROUP = {1, TXC_GROUP, 7, 0};

static uint8_t value[TXC_MAX_VALUE_LEN + 1];
static uint8_t body[TXC_MAX_BODY_LEN];
static uint8_t longest[TXC_MAX_BODY_LEN + 1];
static size_t len, count;
static txc_row row;
static txc_receipt receipt;
static uint32_t stamp;
static txc_kept kept;
static txc_txn txn;  /* the one that began last; a stale number once it has ended */
static size_t store; /* that of the next site */

static uint32_t call(txc_site *site, const txc_key *key, size_t room) { return txc_call(site, txn, key, value, room, &len); }
static uint32_t rows(txc_site *site) { return txc_query_rows(site, txn, &GROUP, &count); }
static uint32_t row_at(txc_site *site, size_t at, size_t room) { return txc_row_at(site, txn, at, &row, body, room, &len); }
static uint32_t put(txc_site *site, const char *text) { return txc_put(site, txn, 1, 1, 7, (const uint8_t *)text, strlen(text)); }
static uint32_t begin(txc_site *site, uint64_t now) { return txc_begin(site, now, 30000, 0, &txn); }
static uint32_t open_site(txc_site *site, size_t events, size_t capacity, size_t recent, uint64_t renew_after) {
    return txc_site_open(site, &(txc_site_settings){sizeof(txc_site_settings), events, capacity, recent, renew_after, 0, store});
}
static uint32_t finish(txc_site *site, const char *text) {
    return txc_finish(site, txn, (const uint8_t *)text, strlen(text), value, sizeof value, &len);
}

/* Each call on a handle that has no site. */
static void try_closed(txc_site *site) {
    uint64_t moment = 77;
    len = count = stamp = 77;
    txn = receipt.answers = 77;
    CHECK(txc_begin(site, 0, 0, 0, &txn) == TXC_CLOSED && txc_begin(site, 0, 0, UINT32_MAX, &txn) == TXC_CLOSED);
    CHECK(txc_begin_write(site, &txn) == TXC_CLOSED);
    CHECK(txc_begin_write_at(site, 0, &txn) == TXC_CLOSED && txc_begin_write_at(site, UINT32_MAX, &txn) == TXC_CLOSED);
    CHECK(call(site, &HIGHEST, 8) == TXC_CLOSED && len == 77);
    CHECK(rows(site) == TXC_CLOSED && count == 77);
    CHECK(row_at(site, 0, 8) == TXC_CLOSED && len == 77);
    CHECK(txc_answer(site, txn, value, 8, &len) == TXC_CLOSED && len == 77);
    CHECK(finish(site, "1") == TXC_CLOSED && len == 77);
    CHECK(txc_give_up(site, txn) == TXC_CLOSED);
    CHECK(txc_commit(site, txn, &receipt) == TXC_CLOSED && receipt.answers == 77);
    CHECK(txc_abort(site, txn) == TXC_CLOSED);
    CHECK(put(site, "110") == TXC_CLOSED && txc_remove(site, txn, 1, 1) == TXC_CLOSED);
    CHECK(txc_commit_write(site, txn, &stamp) == TXC_CLOSED && stamp == 77);
    kept.retired = kept.swept = kept.horizon = 77;
    CHECK(txc_keep(site, 0, 0, &kept) == TXC_CLOSED && kept.retired == 77 && kept.horizon == 77 && kept.swept == 77);
    CHECK(txc_read_stamp(site, txn, &stamp) == TXC_CLOSED && txc_member_at(site, txn, 0, &stamp, &moment) == TXC_CLOSED && stamp == 77);
    CHECK(txc_pin(site, 1, &stamp) == TXC_CLOSED && stamp == 77 && moment == 77 && txn == 77);
    CHECK(txc_open_transactions(site, &count) == TXC_CLOSED && count == 77 && txc_oldest_open(site, &txn) == TXC_CLOSED && txn == 77);
    CHECK(txc_site_close(site) == TXC_CLOSED && !site->is_open);
}

static void try_opening(txc_site *site, size_t events) {
    CHECK(open_site(site, TXC_MAX_EVENTS + 1, 8, 8, 1000) == TXC_BAD_ARGUMENT && !site->is_open);
    CHECK(open_site(site, SIZE_MAX, 8, 8, 1000) == TXC_BAD_ARGUMENT);
    CHECK(open_site(site, events, TXC_MAX_CAPACITY + 1, 8, 1000) == TXC_BAD_ARGUMENT);
    CHECK(open_site(site, events, 8, TXC_MAX_RECENT + 1, 1000) == TXC_BAD_ARGUMENT && !site->is_open);
    CHECK(open_site(site, TXC_MAX_EVENTS, TXC_MAX_CAPACITY, 8, 1000) == TXC_DONE && txc_site_close(site) == TXC_DONE);
    CHECK(open_site(site, events, 8, 8, 30000) == TXC_DONE && site->is_open);
    void *slot = site->slot;
    CHECK(open_site(site, events, 8, 8, 1000) == TXC_ALREADY_OPEN && site->slot == slot);
    CHECK(open_site(site, SIZE_MAX, 0, 0, 1000) == TXC_ALREADY_OPEN && site->slot == slot);
}

/* A field beyond the size counts as 0, and a size that the library does not know is refused. */
static void try_settings(void) {
    txc_site site = TXC_SITE_CLOSED;
    txc_site_settings settings = TXC_SITE_SETTINGS, odd = {0, SIZE_MAX, SIZE_MAX, SIZE_MAX, UINT64_MAX, SIZE_MAX, SIZE_MAX};
    CHECK(txc_site_open(&site, &settings) == TXC_DONE && txc_site_close(&site) == TXC_DONE);
    for (odd.size = 0; odd.size < sizeof(size_t); odd.size++)
        CHECK(txc_site_open(&site, &odd) == TXC_BAD_ARGUMENT && !site.is_open);
    for (; odd.size < 2 * sizeof(size_t); odd.size++)
        CHECK(txc_site_open(&site, &odd) == TXC_DONE && txc_site_close(&site) == TXC_DONE);
    CHECK(txc_site_open(&site, &odd) == TXC_BAD_ARGUMENT && !site.is_open);
    settings.bytes = 1; /* an older program's settings end before it */
    settings.store = SIZE_MAX;
    settings.size = offsetof(txc_site_settings, bytes);
    CHECK(txc_site_open(&site, &settings) == TXC_DONE && txc_site_close(&site) == TXC_DONE);
    for (settings.size = offsetof(txc_site_settings, store); settings.size < sizeof settings; settings.size++)
        CHECK(txc_site_open(&site, &settings) == TXC_DONE && txc_site_close(&site) == TXC_DONE);
    CHECK(txc_site_open(&site, &settings) == TXC_BAD_ARGUMENT && !site.is_open);
    for (settings.store = 0; settings.store < 300; settings.store++) {
        bool is_store = settings.store == TXC_STORE_SQL || settings.store == TXC_STORE_PLAIN;
        CHECK(txc_site_open(&site, &settings) == (is_store ? TXC_DONE : TXC_BAD_ARGUMENT) && site.is_open == is_store);
        CHECK(txc_site_close(&site) == (is_store ? TXC_DONE : TXC_CLOSED));
    }
    settings.store = TXC_STORE_PLAIN;
    settings.size = sizeof settings + 1;
    CHECK(txc_site_open(&site, &settings) == TXC_BAD_ARGUMENT);
    settings.size = SIZE_MAX;
    CHECK(txc_site_open(&site, &settings) == TXC_BAD_ARGUMENT && !site.is_open && txc_abi() == TXC_ABI);
}

/* What needs a transaction that is not open. */
static void try_at_rest(txc_site *site) {
    len = count = stamp = 77;
    CHECK(call(site, &HIGHEST, 8) == TXC_NOT_OPEN && len == 77);
    CHECK(rows(site) == TXC_NOT_OPEN && count == 77);
    CHECK(row_at(site, 0, 8) == TXC_NOT_OPEN && len == 77);
    CHECK(txc_answer(site, txn, value, 8, &len) == TXC_NOT_OPEN);
    CHECK(finish(site, "1") == TXC_NOT_OPEN && txc_give_up(site, txn) == TXC_NOT_OPEN);
    CHECK(txc_commit(site, txn, &receipt) == TXC_NOT_OPEN && txc_abort(site, txn) == TXC_NOT_OPEN);
    CHECK(put(site, "110") == TXC_NOT_OPEN && txc_remove(site, txn, 1, 1) == TXC_NOT_OPEN);
    CHECK(txc_commit_write(site, txn, &stamp) == TXC_NOT_OPEN && stamp == 77);
    CHECK(txc_begin(site, 0, 0, UINT32_MAX, &txn) == TXC_BAD_ARGUMENT && txc_begin_write_at(site, UINT32_MAX, &txn) == TXC_BAD_ARGUMENT);
    CHECK(txc_begin(site, 0, 0, TXC_MAX_EVENTS + 1, &txn) == TXC_DONE && txc_abort(site, txn) == TXC_DONE);
    CHECK(txc_begin_write_at(site, 1, &txn) == TXC_REFUSED && txc_begin_write_at(site, TXC_LAST_STAMP, &txn) == TXC_REFUSED);
    CHECK(txc_abort(site, txn) == TXC_NOT_OPEN);
    CHECK(txc_begin_write_at(site, 0, &txn) == TXC_DONE && rows(site) == TXC_ANSWERED && count == 0 && txc_abort(site, txn) == TXC_DONE);
    CHECK(txc_begin(site, 0, 0, TXC_LAST_STAMP, &txn) == TXC_DONE && call(site, &HIGHEST, 8) == TXC_REFUSED && txc_abort(site, txn) == TXC_DONE);
}

static void try_writing(txc_site *site) {
    CHECK(txc_begin_write(site, &txn) == TXC_DONE);
    CHECK(put(site, "") == TXC_DONE && put(site, "two words") == TXC_DONE);
    CHECK(txc_put(site, txn, TXC_LAST_TABLE + 1, 1, 7, (const uint8_t *)"1", 1) == TXC_BAD_ARGUMENT);
    CHECK(txc_put(site, txn, 1, 1, 7, NULL, 0) == TXC_DONE);
    CHECK(txc_put(site, txn, 1, 1, 7, longest, sizeof longest) == TXC_BAD_ARGUMENT);
    CHECK(txc_remove(site, txn, TXC_LAST_TABLE + 1, 1) == TXC_BAD_ARGUMENT);
    CHECK(put(site, "110") == TXC_DONE);
    CHECK(rows(site) == TXC_ANSWERED && count == 0 && row_at(site, 0, 8) == TXC_MISS);
    CHECK(txc_commit(site, txn, &receipt) == TXC_NOT_OPEN);
    CHECK(txc_abort(site, txn) == TXC_DONE && txc_begin_write(site, &txn) == TXC_DONE);
    CHECK(put(site, "110") == TXC_DONE && txc_commit_write(site, txn, &stamp) == TXC_DONE && stamp == 1);
    CHECK(txc_begin_write(site, &txn) == TXC_DONE && rows(site) == TXC_ANSWERED && count == 1);
    CHECK(row_at(site, 0, 2) == TXC_NO_ROOM && len == 3 && row_at(site, 0, 3) == TXC_DONE && !memcmp(body, "110", 3));
    CHECK(row.table == 1 && row.id == 1 && row.group == 7 && row_at(site, 1, 8) == TXC_MISS);
    CHECK(txc_abort(site, txn) == TXC_DONE);
}

/* Bodies of any bytes: none, each byte there is, and as many as there may be. */
static void try_bodies(txc_site *site) {
    for (size_t at = 0; at < sizeof longest; at++)
        longest[at] = (uint8_t)at;
    CHECK(txc_begin_write(site, &txn) == TXC_DONE && txc_put(site, txn, 2, 0, 9, longest, 0) == TXC_DONE);
    CHECK(txc_put(site, txn, 2, 1, 9, longest, 256) == TXC_DONE && txc_put(site, txn, 2, 2, 9, longest, TXC_MAX_BODY_LEN) == TXC_DONE);
    CHECK(txc_commit_write(site, txn, &stamp) == TXC_DONE && txc_begin_write(site, &txn) == TXC_DONE);
    CHECK(txc_query_rows(site, txn, &(txc_query){2, TXC_GROUP, 9, 0}, &count) == TXC_ANSWERED && count == 3);
    CHECK(row_at(site, 0, 0) == TXC_DONE && len == 0 && row_at(site, 1, 255) == TXC_NO_ROOM && len == 256);
    CHECK(row_at(site, 1, 256) == TXC_DONE && !memcmp(body, longest, 256));
    CHECK(row_at(site, 2, sizeof body) == TXC_DONE && len == sizeof body && !memcmp(body, longest, sizeof body));
    CHECK(txc_remove(site, txn, 2, 0) == TXC_DONE && txc_remove(site, txn, 2, 1) == TXC_DONE && txc_remove(site, txn, 2, 2) == TXC_DONE);
    CHECK(txc_commit_write(site, txn, &stamp) == TXC_DONE);
}

/* Functions that a transaction computes that writes. */
static void try_calls_in_a_write(txc_site *site) {
    txc_key bad = HIGHEST;
    bad.count = TXC_MAX_ARGS + 1;
    CHECK(txc_begin_write(site, &txn) == TXC_DONE && finish(site, "1") == TXC_NOT_OPEN && txc_give_up(site, txn) == TXC_MISS);
    len = 77;
    CHECK(txc_answer(site, txn, value, 8, &len) == TXC_MISS && len == 77 && call(site, &bad, 8) == TXC_BAD_ARGUMENT && len == 77);
    CHECK(rows(site) == TXC_ANSWERED && txc_answer(site, txn, value, 8, &len) == TXC_ANSWERED && len == 1);
    CHECK(call(site, &HIGHEST, 8) == TXC_COMPUTE && txc_commit_write(site, txn, &stamp) == TXC_MID_CALL && txc_commit(site, txn, &receipt) == TXC_NOT_OPEN);
    CHECK(txc_keep(site, 0, 0, &kept) == TXC_DONE && kept.horizon == 1);
    CHECK(put(site, "120") == TXC_DONE && txc_remove(site, txn, 1, 2) == TXC_DONE);
    CHECK(rows(site) == TXC_ANSWERED && count == 1 && row_at(site, 0, 8) == TXC_DONE && !memcmp(body, "110", 3));
    CHECK(finish(site, "110") == TXC_DONE && len == 3 && !memcmp(value, "110", 3) && row_at(site, 0, 8) == TXC_MISS);
    CHECK(txc_answer(site, txn, value, 2, &len) == TXC_NO_ROOM && len == 3 && txc_answer(site, txn, value, 3, &len) == TXC_DONE);
    CHECK(call(site, &BIDS, 8) == TXC_COMPUTE && call(site, &HIGHEST, 8) == TXC_COMPUTE && rows(site) == TXC_ANSWERED && count == 1);
    CHECK(txc_finish(site, txn, (const uint8_t *)"110", 3, value, 2, &len) == TXC_NO_ROOM && len == 3);
    CHECK(txc_answer(site, txn, value, 8, &len) == TXC_ANSWERED && len == 3 && row_at(site, 0, 8) == TXC_MISS);
    CHECK(finish(site, "1") == TXC_DONE && len == 1 && finish(site, "1") == TXC_NOT_OPEN);
    CHECK(call(site, &BIDS, 8) == TXC_COMPUTE && call(site, &HIGHEST, 8) == TXC_COMPUTE && txc_give_up(site, txn) == TXC_DONE);
    CHECK(txc_give_up(site, txn) == TXC_MISS && finish(site, "1") == TXC_NOT_OPEN);
    CHECK(call(site, &HIGHEST, 8) == TXC_COMPUTE && call(site, &BIDS, 8) == TXC_REFUSED && finish(site, "1") == TXC_NOT_OPEN);
    CHECK(call(site, &HIGHEST, 8) == TXC_COMPUTE && txc_abort(site, txn) == TXC_DONE && txc_abort(site, txn) == TXC_NOT_OPEN);
}

/* Values at their limits, and calls in calls in calls. */
static void try_limits_in_a_write(txc_site *site) {
    CHECK(txc_begin_write(site, &txn) == TXC_DONE && call(site, &BIDS, 8) == TXC_COMPUTE && call(site, &HIGHEST, 8) == TXC_COMPUTE);
    CHECK(txc_finish(site, txn, value, TXC_MAX_VALUE_LEN + 1, value, sizeof value, &len) == TXC_REFUSED && finish(site, "1") == TXC_NOT_OPEN);
    CHECK(call(site, &HIGHEST, 8) == TXC_COMPUTE && txc_finish(site, txn, value, TXC_MAX_VALUE_LEN, NULL, 0, &len) == TXC_NO_ROOM);
    CHECK(len == TXC_MAX_VALUE_LEN && txc_answer(site, txn, value, TXC_MAX_VALUE_LEN, &len) == TXC_DONE && len == TXC_MAX_VALUE_LEN);
    CHECK(call(site, &HIGHEST, 8) == TXC_COMPUTE && txc_finish(site, txn, NULL, 0, NULL, 0, &len) == TXC_DONE && len == 0);
    uint32_t number = TXC_COMPUTE;
    for (uint8_t deep = 0; deep < 100 && number == TXC_COMPUTE; deep++)
        number = call(site, &(txc_key){(uint8_t)(TXC_LAST_FUNCTION - deep % (TXC_LAST_FUNCTION + 1)), 0, {0}}, 8);
    CHECK(number == TXC_REFUSED && finish(site, "1") == TXC_NOT_OPEN);
    CHECK(put(site, "110") == TXC_DONE && txc_commit_write(site, txn, &stamp) == TXC_DONE && stamp == 1);
}

static void try_reading(txc_site *site) {
    txc_key bad = HIGHEST;
    bad.function = TXC_LAST_FUNCTION + 1;
    txc_query none = GROUP;
    none.kind = 4;
    CHECK(begin(site, 1000) == TXC_DONE);
    CHECK(put(site, "110") == TXC_NOT_OPEN && txc_commit_write(site, txn, &stamp) == TXC_NOT_OPEN);
    CHECK(call(site, &bad, 8) == TXC_BAD_ARGUMENT && txc_query_rows(site, txn, &none, &count) == TXC_BAD_ARGUMENT);
    CHECK(rows(site) == TXC_NOT_OPEN && finish(site, "1") == TXC_NOT_OPEN && txc_give_up(site, txn) == TXC_MISS);
    CHECK(txc_answer(site, txn, value, 8, &len) == TXC_MISS);
    CHECK(call(site, &HIGHEST, 8) == TXC_COMPUTE && txc_answer(site, txn, value, 8, &len) == TXC_MISS);
    CHECK(txc_commit(site, txn, &receipt) == TXC_MID_CALL);
    CHECK(rows(site) == TXC_ANSWERED && count == 1 && row_at(site, 0, 8) == TXC_DONE && row_at(site, 1, 8) == TXC_MISS);
    CHECK(txc_give_up(site, txn) == TXC_DONE && txc_give_up(site, txn) == TXC_MISS);
    CHECK(call(site, &HIGHEST, 8) == TXC_COMPUTE && call(site, &BIDS, 8) == TXC_REFUSED && finish(site, "1") == TXC_NOT_OPEN);
    CHECK(call(site, &HIGHEST, 8) == TXC_COMPUTE && rows(site) == TXC_ANSWERED && finish(site, "110") == TXC_DONE && len == 3);
    CHECK(call(site, &HIGHEST, 2) == TXC_NO_ROOM && len == 3);
    CHECK(txc_answer(site, txn, value, 3, &len) == TXC_DONE && !memcmp(value, "110", 3));
    CHECK(txc_call(site, txn, &HIGHEST, NULL, 0, &len) == TXC_NO_ROOM && len == 3);
    CHECK(call(site, &BIDS, 8) == TXC_COMPUTE && call(site, &HIGHEST, 8) == TXC_ANSWERED && len == 3);
    CHECK(txc_answer(site, txn, value, 8, &len) == TXC_ANSWERED && txc_abort(site, txn) == TXC_DONE);
    CHECK(begin(site, 1000) == TXC_DONE && txc_commit(site, txn, &receipt) == TXC_DONE);
    CHECK(receipt.answers == 0 && !receipt.has_pin);
}

/* What a function gave in a call that was given up binds nobody. */
static void try_another_value(txc_site *site) {
    static const txc_key PLAIN = {2, 0, {0}}, OUTER = {3, 0, {0}};
    CHECK(begin(site, 1000) == TXC_DONE);
    CHECK(call(site, &OUTER, 8) == TXC_COMPUTE && call(site, &PLAIN, 8) == TXC_COMPUTE);
    CHECK(finish(site, "a") == TXC_ANSWERED && txc_give_up(site, txn) == TXC_DONE);
    CHECK(call(site, &PLAIN, 8) == TXC_COMPUTE && finish(site, "b") == TXC_DONE && len == 1 && *value == 'b');
    CHECK(txc_commit(site, txn, &receipt) == TXC_DONE && receipt.answers == 1 && receipt.has_pin);
}

/* Pins stay for their age, and then go with what only they showed. */
static void try_keeping(txc_site *site) {
    CHECK(txc_keep(site, 1000, 30000, &kept) == TXC_DONE && kept.retired == 0);
    uint32_t held = kept.horizon;
    CHECK(txc_begin_write(site, &txn) == TXC_DONE && put(site, "130") == TXC_DONE && txc_commit_write(site, txn, &stamp) == TXC_DONE && stamp > held);
    CHECK(txc_keep(site, 31000, 30000, &kept) == TXC_DONE && kept.retired == 0 && kept.horizon == held);
    CHECK(txc_keep(site, 31001, 30000, &kept) == TXC_DONE && kept.retired == 1 && kept.horizon == stamp && kept.swept > 0);
    CHECK(txc_keep(site, 31001, 30000, &kept) == TXC_DONE && kept.retired == 0 && kept.horizon == stamp && kept.swept == 0);
    CHECK(begin(site, 31001) == TXC_DONE && call(site, &HIGHEST, 8) == TXC_COMPUTE && rows(site) == TXC_ANSWERED);
    CHECK(row_at(site, 0, 8) == TXC_DONE && !memcmp(body, "130", 3) && txc_abort(site, txn) == TXC_DONE);
}

/* ---- updates that must not be lost */

/* Commits the amount as the next bid with this id, with nothing read. */
static uint32_t bid(txc_site *site, uint32_t id, const char *amount) {
    CHECK(txc_begin_write(site, &txn) == TXC_DONE && txc_put(site, txn, 1, id, 7, (const uint8_t *)amount, strlen(amount)) == TXC_DONE);
    CHECK(txc_commit_write(site, txn, &stamp) == TXC_DONE);
    return stamp;
}

/* The stamp at which the highest bid was read. */
static uint32_t seen(txc_site *site, uint64_t now) {
    CHECK(begin(site, now) == TXC_DONE);
    uint32_t number = call(site, &HIGHEST, 8);
    CHECK(number == TXC_DONE || (number == TXC_COMPUTE && rows(site) == TXC_ANSWERED && row_at(site, 0, 8) == TXC_DONE
                                 && txc_finish(site, txn, body, len, value, sizeof value, &len) == TXC_DONE));
    CHECK(txc_commit(site, txn, &receipt) == TXC_DONE && receipt.has_pin);
    return receipt.stamp;
}

/* Reads the row over the state that was seen, and changes it; and what the commit answers. */
static uint32_t change(txc_site *site, uint32_t at, const char *text) {
    CHECK(txc_begin_write_at(site, at, &txn) == TXC_DONE && txc_query_rows(site, txn, &(txc_query){1, TXC_ID, 1, 0}, &count) == TXC_ANSWERED);
    CHECK(count == 1 && row_at(site, 0, 8) == TXC_DONE && !memcmp(body, "110", 3) && put(site, text) == TXC_DONE);
    return txc_commit_write(site, txn, &stamp);
}

/* Two read one page, and each changes what it showed. */
static void try_lost_update(size_t events) {
    txc_site site = TXC_SITE_CLOSED;
    CHECK(open_site(&site, events, 8, 8, 30000) == TXC_DONE && bid(&site, 1, "110") == 1);
    uint32_t at = seen(&site, 1000);
    CHECK(seen(&site, 1000) == at && change(&site, at, "120") == TXC_DONE && stamp == at + 1);
    stamp = 77;
    CHECK(change(&site, at, "115") == TXC_CONFLICT && stamp == 77);
    CHECK(txc_commit_write(&site, txn, &stamp) == TXC_CONFLICT && txc_abort(&site, txn) == TXC_DONE);
    CHECK(txc_begin_write(&site, &txn) == TXC_DONE && rows(&site) == TXC_ANSWERED && row_at(&site, 0, 8) == TXC_DONE && !memcmp(body, "120", 3));
    CHECK(put(&site, "125") == TXC_DONE && txc_commit_write(&site, txn, &stamp) == TXC_DONE && stamp == at + 2);
    CHECK(txc_site_close(&site) == TXC_DONE);
}

/* What is read by a function, and by a query with no answer, is read too; and what others changed beside it is no conflict. */
static void try_what_conflicts(size_t events) {
    txc_site site = TXC_SITE_CLOSED;
    const txc_query other = {2, TXC_ALL, 0, 0};
    CHECK(open_site(&site, events, 8, 8, 30000) == TXC_DONE && bid(&site, 1, "110") == 1);
    uint32_t at = seen(&site, 1000);
    CHECK(txc_begin_write_at(&site, at, &txn) == TXC_DONE && txc_commit_write(&site, txn, &stamp) == TXC_DONE && stamp == at);
    bid(&site, 2, "120");
    CHECK(txc_begin_write_at(&site, at, &txn) == TXC_DONE && call(&site, &HIGHEST, 8) == TXC_COMPUTE && rows(&site) == TXC_ANSWERED && count == 1);
    CHECK(finish(&site, "110") == TXC_DONE && txc_remove(&site, txn, 2, 5) == TXC_DONE && txc_commit_write(&site, txn, &stamp) == TXC_CONFLICT);
    CHECK(txc_abort(&site, txn) == TXC_DONE);
    CHECK(txc_begin_write_at(&site, at, &txn) == TXC_DONE && txc_query_rows(&site, txn, &other, &count) == TXC_ANSWERED && count == 0);
    CHECK(txc_put(&site, txn, 2, 5, 0, (const uint8_t *)"a", 1) == TXC_DONE && txc_commit_write(&site, txn, &stamp) == TXC_DONE);
    CHECK(txc_begin_write_at(&site, at, &txn) == TXC_DONE && txc_query_rows(&site, txn, &other, &count) == TXC_ANSWERED && count == 0);
    CHECK(put(&site, "130") == TXC_DONE && txc_commit_write(&site, txn, &stamp) == TXC_CONFLICT && txc_abort(&site, txn) == TXC_DONE);
    CHECK(txc_begin_write_at(&site, at, &txn) == TXC_DONE && put(&site, "130") == TXC_DONE && txc_commit_write(&site, txn, &stamp) == TXC_DONE);
    CHECK(txc_begin_write_at(&site, stamp, &txn) == TXC_DONE && rows(&site) == TXC_ANSWERED && count == 2 && row_at(&site, 0, 8) == TXC_DONE);
    CHECK(!memcmp(body, "130", 3) && txc_abort(&site, txn) == TXC_DONE && txc_begin_write_at(&site, stamp + 1, &txn) == TXC_REFUSED);
    CHECK(txc_site_close(&site) == TXC_DONE);
}

/* Below the horizon of a keep nothing is read any more. */
static void try_below_the_horizon(size_t events) {
    txc_site site = TXC_SITE_CLOSED;
    CHECK(open_site(&site, events, 8, 8, 30000) == TXC_DONE && bid(&site, 1, "110") == 1);
    uint32_t at = seen(&site, 1000), newest = bid(&site, 2, "120");
    CHECK(txc_keep(&site, 1000, 30000, &kept) == TXC_DONE && kept.horizon == at && txc_begin_write_at(&site, at, &txn) == TXC_DONE);
    CHECK(rows(&site) == TXC_ANSWERED && count == 1 && txc_abort(&site, txn) == TXC_DONE);
    CHECK(txc_keep(&site, 100000, 0, &kept) == TXC_DONE && kept.horizon == newest);
    uint32_t number = txc_begin_write_at(&site, at, &txn);
    CHECK(number == (events ? TXC_DONE : TXC_REFUSED));
    count = 77;
    CHECK(number != TXC_DONE || (rows(&site) == TXC_REFUSED && count == 77 && txc_abort(&site, txn) == TXC_DONE));
    CHECK(txc_begin_write_at(&site, newest, &txn) == TXC_DONE && rows(&site) == TXC_ANSWERED && count == 2);
    CHECK(txc_site_close(&site) == TXC_DONE);
}

/* To end takes no memory, but for a commit that writes. */
static void try_ending(size_t events) {
    txc_site site = TXC_SITE_CLOSED;
    CHECK(open_site(&site, events, 8, 8, 30000) == TXC_DONE && bid(&site, 1, "110") == 1);
    for (int way = 0; way < 5; way++) {
        CHECK((way < 3 ? begin(&site, 1000) : txc_begin_write(&site, &txn)) == TXC_DONE);
        if (way == 1 || way == 4)
            CHECK(call(&site, &BIDS, 8) == TXC_COMPUTE && rows(&site) == TXC_ANSWERED);
        until_refusal = refusals = 0;
        CHECK((way == 2 ? txc_commit(&site, txn, &receipt) : txc_abort(&site, txn)) == TXC_DONE && refusals == 0);
        until_refusal = -1;
    }
    CHECK(txc_site_close(&site) == TXC_DONE);
}

/* ---- a page, and an update */

/* The page, as far as memory is at hand; and then all is given up. */
static bool is_page(size_t events) {
    txc_site site = TXC_SITE_CLOSED;
    bool is_whole = open_site(&site, events, 8, 8, 30000) == TXC_DONE && txc_begin_write(&site, &txn) == TXC_DONE && put(&site, "110") == TXC_DONE
        && txc_commit_write(&site, txn, &stamp) == TXC_DONE && begin(&site, 1000) == TXC_DONE
        && call(&site, &HIGHEST, 8) == TXC_COMPUTE && rows(&site) == TXC_ANSWERED && finish(&site, "110") == TXC_DONE
        && call(&site, &BIDS, 8) == TXC_COMPUTE && call(&site, &HIGHEST, 8) == TXC_ANSWERED && rows(&site) == TXC_ANSWERED
        && finish(&site, "110,110") == TXC_DONE && txc_commit(&site, txn, &receipt) == TXC_DONE && receipt.answers == 2
        && txc_keep(&site, 100000, 1, &kept) == TXC_DONE && kept.retired == 1;
    txc_site_close(&site);
    return is_whole && !site.is_open;
}

/* The same of an update over a state that was read, and of one that comes too late. */
static bool is_update(size_t events) {
    txc_site site = TXC_SITE_CLOSED;
    bool is_whole = open_site(&site, events, 8, 8, 30000) == TXC_DONE && txc_begin_write(&site, &txn) == TXC_DONE && put(&site, "110") == TXC_DONE
        && txc_commit_write(&site, txn, &stamp) == TXC_DONE && txc_begin_write_at(&site, 1, &txn) == TXC_DONE
        && call(&site, &BIDS, 8) == TXC_COMPUTE && call(&site, &HIGHEST, 8) == TXC_COMPUTE && rows(&site) == TXC_ANSWERED
        && finish(&site, "110") == TXC_ANSWERED && finish(&site, "110") == TXC_DONE && put(&site, "120") == TXC_DONE
        && txc_commit_write(&site, txn, &stamp) == TXC_DONE && txc_begin_write_at(&site, 1, &txn) == TXC_DONE && rows(&site) == TXC_ANSWERED
        && put(&site, "115") == TXC_DONE && txc_commit_write(&site, txn, &stamp) == TXC_CONFLICT && txc_abort(&site, txn) == TXC_DONE && stamp == 2;
    txc_site_close(&site);
    return is_whole && !site.is_open;
}

static void try_site(size_t events) {
    txc_site site = TXC_SITE_CLOSED;
    try_closed(&site);
    try_opening(&site, events);
    try_at_rest(&site);
    try_writing(&site);
    try_calls_in_a_write(&site);
    try_limits_in_a_write(&site);
    try_reading(&site);
    try_another_value(&site);
    try_keeping(&site);
    try_bodies(&site);
    CHECK(txc_site_close(&site) == TXC_DONE && !site.is_open);
    try_closed(&site);
    try_lost_update(events);
    try_what_conflicts(events);
    try_below_the_horizon(events);
    try_ending(events);
}

int main(void) {
    long refused = 0;
    try_settings();
    for (size_t at = 0; at < 4; at++) {
        size_t events = at % 2 * 64;
        store = at / 2;
        try_site(events);
        long of_page = refuse_each(is_page, events), of_update = refuse_each(is_update, events);
        CHECK(of_page > 0 && of_update > 0);
        refused += of_page + of_update;
    }
    printf("%d odd uses of a site, %d wrong; %ld allocations of pages and updates, each refused in its turn\n", uses, wrong, refused);
    return wrong != 0;
}
