/* Two sites, one over each store of rows, that are told the same: both answer each call alike. The acts are random, and rows, groups and states collide.
 * And over each store a history with every allocation refused in its turn. Prints how many there are.
 *
 * usage: stores [SEED] */
#include "odd.h"

enum { ACTS = 6000, TABLES = 3, IDS = 40, GROUPS = 5, WRITERS = 6, MOST_LEN = 40, PAIR = 2 };

static txc_site sites[PAIR];
static txc_txn writers[PAIR][WRITERS]; /* 0: none is open there */
static uint8_t bodies[PAIR][MOST_LEN];
static uint64_t state, now;
static uint32_t newest;
static long answers, rows_found, changes, conflicts, keeps, refused_reads;

/* A number below `most`, by the generator of Steele, Lea and Flood. */
static uint32_t below(uint32_t most) {
    state += 0x9e3779b97f4a7c15u;
    uint64_t it = state;
    it = (it ^ (it >> 30)) * 0xbf58476d1ce4e5b9u;
    it = (it ^ (it >> 27)) * 0x94d049bb133111ebu;
    return (uint32_t)((it ^ (it >> 31)) >> 32) % most;
}

static uint32_t id_of(uint32_t number) { return number % IDS == IDS - 1 ? UINT32_MAX : number % IDS * 7919; }

static size_t at;          /* the site that is told */
static uint32_t got[PAIR]; /* what each returned */

/* Makes the call at one site and then at the other; both must return the same number, which is the value. */
#define BOTH(call) (at = 0, got[0] = (call), at = 1, got[1] = (call), both_are(#call, __LINE__))

static uint32_t both_are(const char *what, int line) {
    check(got[0] == got[1], what, __FILE__, line);
    return got[0];
}

/* ---- queries */

static txc_query random_query(void) {
    txc_query it = {(uint8_t)below(TABLES + 1), (uint8_t)below(4), 0, 0};
    it.first = it.kind == TXC_GROUP ? below(GROUPS + 1) : id_of(below(IDS));
    it.last = below(4) ? id_of(below(IDS)) : UINT32_MAX;
    return it;
}

/* The rows that the query finds are the same, one by one. */
static void ask(uint32_t writer, txc_query query) {
    size_t counts[PAIR] = {77, 77}, lens[PAIR];
    txc_row found[PAIR];
    uint32_t number = BOTH(txc_query_rows(&sites[at], writers[at][writer], &query, &counts[at]));
    CHECK((number == TXC_ANSWERED || number == TXC_REFUSED) && counts[0] == counts[1]);
    answers++;
    refused_reads += number == TXC_REFUSED;
    if (number == TXC_REFUSED)
        return;
    for (size_t row = 0; row <= counts[0]; row++) {
        number = BOTH(txc_row_at(&sites[at], writers[at][writer], row, &found[at], bodies[at], MOST_LEN, &lens[at]));
        CHECK(number == (row < counts[0] ? TXC_DONE : TXC_MISS));
        if (number == TXC_DONE) {
            CHECK(found[0].table == found[1].table && found[0].id == found[1].id && found[0].group == found[1].group);
            CHECK(lens[0] == lens[1] && !memcmp(bodies[0], bodies[1], lens[0]));
            rows_found++;
        }
    }
}

/* Every kind of query of every table. */
static void ask_all(uint32_t writer) {
    for (uint8_t table = 0; table < TABLES; table++) {
        ask(writer, (txc_query){table, TXC_ALL, 0, 0});
        ask(writer, (txc_query){table, TXC_RANGE, id_of(below(IDS)), UINT32_MAX});
        for (uint32_t id = 0; id < IDS; id++)
            ask(writer, (txc_query){table, TXC_ID, id_of(id), 0});
        for (uint32_t group = 0; group <= GROUPS; group++)
            ask(writer, (txc_query){table, TXC_GROUP, group, 0});
    }
}

/* ---- acts */

static void end(uint32_t writer) {
    CHECK(BOTH(txc_abort(&sites[at], writers[at][writer])) == TXC_DONE);
    writers[0][writer] = writers[1][writer] = 0;
}

/* Begins over the newest state, or over an older one: some of those are there no more. */
static void begin(uint32_t writer) {
    if (writers[0][writer])
        end(writer);
    uint32_t stamp = below(2) ? newest : newest - below(newest < 60 ? newest + 1 : 60);
    uint32_t number = below(2) ? BOTH(txc_begin_write(&sites[at], &writers[at][writer]))
                               : BOTH(txc_begin_write_at(&sites[at], stamp, &writers[at][writer]));
    if (number != TXC_DONE)
        writers[0][writer] = writers[1][writer] = 0;
    CHECK(number == TXC_DONE || number == TXC_REFUSED);
}

/* A new row or a changed one, most often of another group; or a removal. */
static void change(uint32_t writer) {
    uint8_t table = (uint8_t)below(TABLES), body[MOST_LEN];
    uint32_t id = id_of(below(IDS)), group = below(GROUPS);
    size_t len = below(8) ? 1 + below(8) : below(MOST_LEN + 1);
    for (size_t byte = 0; byte < len; byte++)
        body[byte] = (uint8_t)below(256);
    uint32_t number = below(4) ? BOTH(txc_put(&sites[at], writers[at][writer], table, id, group, body, len))
                               : BOTH(txc_remove(&sites[at], writers[at][writer], table, id));
    CHECK(number == TXC_DONE || number == TXC_REFUSED); /* 256 changes are as many as may be */
    changes += number == TXC_DONE;
}

static void commit(uint32_t writer) {
    uint32_t stamps[PAIR] = {77, 77};
    uint32_t number = BOTH(txc_commit_write(&sites[at], writers[at][writer], &stamps[at]));
    CHECK(stamps[0] == stamps[1]);
    if (number != TXC_DONE) {
        CHECK(number == TXC_CONFLICT || number == TXC_REFUSED);
        conflicts += number == TXC_CONFLICT;
        return end(writer);
    }
    writers[0][writer] = writers[1][writer] = 0;
    newest = stamps[0];
}

/* Vacuums: what no transaction can read goes. */
static void keep(void) {
    txc_kept kept[PAIR];
    uint32_t stamps[PAIR] = {77, 77};
    if (below(2)) {
        CHECK(BOTH(txc_pin(&sites[at], now, &stamps[at])) == TXC_DONE && stamps[0] == stamps[1]);
        newest = stamps[0];
    }
    now += 100;
    uint64_t age = below(500);
    CHECK(BOTH(txc_keep(&sites[at], now, age, &kept[at])) == TXC_DONE);
    CHECK(kept[0].retired == kept[1].retired && kept[0].horizon == kept[1].horizon && kept[0].swept == kept[1].swept);
    keeps++;
}

static void act(void) {
    uint32_t writer = below(WRITERS), kind = below(100);
    if (kind < 3)
        return keep();
    if (!writers[0][writer] || kind < 10)
        begin(writer);
    if (!writers[0][writer])
        return;
    if (kind < 50)
        change(writer);
    else if (kind < 85)
        ask(writer, random_query());
    else
        commit(writer);
}

static void open_both(size_t events) {
    for (at = 0; at < PAIR; at++) {
        sites[at] = (txc_site)TXC_SITE_CLOSED;
        CHECK(txc_site_open(&sites[at], &(txc_site_settings){sizeof(txc_site_settings), events, 8, 8, 30000, 0, at}) == TXC_DONE);
    }
    memset(writers, 0, sizeof writers);
    newest = 0;
}

static void close_both(void) {
    for (at = 0; at < PAIR; at++)
        CHECK(txc_site_close(&sites[at]) == TXC_DONE);
}

static void try_acts(size_t events) {
    open_both(events);
    for (int number = 0; number < ACTS; number++)
        act();
    for (uint32_t writer = 0; writer < WRITERS; writer++) {
        if (writers[0][writer])
            ask_all(writer);
    }
    CHECK(BOTH(txc_begin_write(&sites[at], &writers[at][0])) == TXC_DONE);
    ask_all(0);
    close_both();
}

/* ---- allocations that are refused */

static size_t store; /* of the site that is refused memory */

static uint32_t put(txc_site *site, txc_txn txn, uint32_t id, uint32_t group, const char *text) {
    return txc_put(site, txn, 1, id, group, (const uint8_t *)text, strlen(text));
}

static bool finds(txc_site *site, txc_txn txn, txc_query query, size_t wanted) {
    size_t count;
    return txc_query_rows(site, txn, &query, &count) == TXC_ANSWERED && count == wanted;
}

/* Rows come, change their groups and go, while an older state stays; and a vacuum after each. Then all is given up. */
static bool is_history(size_t events) {
    txc_site site = TXC_SITE_CLOSED;
    txc_txn old = 0, txn = 0;
    uint32_t stamp;
    txc_kept kept;
    bool is_whole = txc_site_open(&site, &(txc_site_settings){sizeof(txc_site_settings), events, 8, 8, 30000, 0, store}) == TXC_DONE
        && txc_begin_write(&site, &txn) == TXC_DONE && put(&site, txn, 1, 7, "110") == TXC_DONE && put(&site, txn, 2, 7, "120") == TXC_DONE
        && put(&site, txn, 9, 8, "a longer body than lies in a row itself") == TXC_DONE && txc_commit_write(&site, txn, &stamp) == TXC_DONE
        && txc_begin_write(&site, &old) == TXC_DONE && txc_begin_write(&site, &txn) == TXC_DONE && put(&site, txn, 1, 8, "130") == TXC_DONE
        && txc_remove(&site, txn, 1, 2) == TXC_DONE && put(&site, txn, 3, 7, "140") == TXC_DONE && txc_commit_write(&site, txn, &stamp) == TXC_DONE
        && txc_keep(&site, 1000, 0, &kept) == TXC_DONE && finds(&site, old, (txc_query){1, TXC_GROUP, 7, 0}, 2)
        && finds(&site, old, (txc_query){1, TXC_RANGE, 2, 9}, 2) && txc_abort(&site, old) == TXC_DONE && txc_begin_write(&site, &txn) == TXC_DONE
        && finds(&site, txn, (txc_query){1, TXC_GROUP, 7, 0}, 1) && finds(&site, txn, (txc_query){1, TXC_GROUP, 8, 0}, 2)
        && finds(&site, txn, (txc_query){1, TXC_ALL, 0, 0}, 3) && finds(&site, txn, (txc_query){1, TXC_ID, 2, 0}, 0)
        && txc_abort(&site, txn) == TXC_DONE && txc_keep(&site, 2000, 0, &kept) == TXC_DONE && kept.horizon == stamp;
    txc_site_close(&site);
    return is_whole && !site.is_open;
}

/* A transaction of three puts, in which the call that was refused is made once more: what is there in the end is whole. */
static bool is_mended(size_t events) {
    txc_site site = TXC_SITE_CLOSED;
    txc_txn txn = 0;
    uint32_t stamp = 0;
    if (txc_site_open(&site, &(txc_site_settings){sizeof(txc_site_settings), events, 8, 8, 30000, 0, store}) != TXC_DONE)
        return false;
    bool is_done = txc_begin_write(&site, &txn) == TXC_DONE || txc_begin_write(&site, &txn) == TXC_DONE;
    for (uint32_t id = 1; id <= 3; id++)
        is_done &= put(&site, txn, id, 7, "110") == TXC_DONE || put(&site, txn, id, 7, "110") == TXC_DONE;
    /* a store that has no memory for its own work refuses */
    is_done &= txc_commit_write(&site, txn, &stamp) == TXC_DONE || txc_commit_write(&site, txn, &stamp) == TXC_DONE;
    until_refusal = -1; /* what is there is read in any case */
    CHECK(is_done && stamp == 1 && txc_begin_write(&site, &txn) == TXC_DONE && finds(&site, txn, (txc_query){1, TXC_ALL, 0, 0}, 3)
          && finds(&site, txn, (txc_query){1, TXC_GROUP, 7, 0}, 3) && finds(&site, txn, (txc_query){1, TXC_ID, 2, 0}, 1));
    return txc_site_close(&site) == TXC_DONE && is_done;
}

int main(int count, char **words) {
    long refused = 0;
    state = count > 1 ? strtoull(words[1], NULL, 10) : 1;
    for (size_t of = 0; of < 4; of++) {
        size_t events = of % 2 * 65536;
        store = of / 2;
        try_acts(events);
        long of_history = refuse_each(is_history, events), of_mended = refuse_each(is_mended, events);
        CHECK(of_history > 0 && of_mended > 0);
        refused += of_history + of_mended;
    }
    CHECK(rows_found > 0 && changes > 0 && conflicts > 0 && keeps > 0 && refused_reads > 0);
    printf("%ld changes, %ld queries with %ld rows, %ld conflicts and %ld keeps over both stores; %d checks, %d wrong; %ld allocations, each refused "
           "in its turn\n", changes, answers, rows_found, conflicts, keeps, uses, wrong, refused);
    return wrong != 0;
}
