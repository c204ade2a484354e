/* Plays lines of mode world with a site, and prints each as a world would be told it, with the reply, after a tab.
 *
 * usage: play_site LIST STORE       each line of LIST: EVENTS CAPACITY RECENT RENEW FILE; prints `== FILE`, and then its lines
 *
 * Each of eight actors is a thread that is handed its turn, so that its functions are computed on its own stack: `call` makes the first act of a
 * call, each `go` the next one, and what else the actor is told has its call end first, but `abort`. An act is as many lines `step` as it makes
 * requests; scripts/worlds.py has the rest. `rw!` is `rw` over the stamp of the newest state, and `commit!` a commit in mid-call.
 *
 * Beside the replies it checks the numbers of transactions, how many are open, and the stamps that are to be read. The last line is
 * `acts N between M`: how many acts there were, and how many while another actor was in mid-call. */
#include "txc.h"
#include <inttypes.h>
#include <pthread.h>
#include <stdio.h>
#include <stdlib.h>
#include <string.h>

/* A world's values have at most LONGEST_VALUE bytes, and its functions ask at most MOST_ASKS times: this player has the limits of a script too. */
enum { ACTORS = 8, KEEPER = ACTORS, LONGEST = 512, LONGEST_VALUE = 1024, MOST_ASKS = 64 };

typedef struct {
    uint8_t bytes[LONGEST_VALUE];
    size_t len;
} value;

typedef struct {
    pthread_t thread;
    int number;
    txc_txn txn;
    bool is_writing;
    bool is_over;    /* what is computed was aborted, or closed */
    bool is_calling;
    uint32_t floor;  /* of its session: the greatest stamp that it was answered */
    char line[LONGEST];
} actor;

static txc_site site;
static actor actors[ACTORS];
static txc_txn last_given;
static long acts, acts_between, wrong;

static bool begins(const char *line, const char *word) { return !strncmp(line, word, strlen(word)); }

/* ---- turns */

static pthread_mutex_t turns = PTHREAD_MUTEX_INITIALIZER;
static pthread_cond_t handed = PTHREAD_COND_INITIALIZER;
static int whose = KEEPER;

/* Hands the turn on, and waits until it is one's own again. */
static void hand(int to, int own) {
    pthread_mutex_lock(&turns);
    whose = to;
    pthread_cond_broadcast(&handed);
    while (whose != own)
        pthread_cond_wait(&handed, &turns);
    pthread_mutex_unlock(&turns);
}

static void resume(actor *it) { hand(it->number, KEEPER); }

/* The end of an act of a call: the next one comes once the actor is told so. */
static void pause_call(actor *it) { hand(KEEPER, it->number); }

static void count_act(const actor *own) {
    bool is_between = false;
    for (int at = 0; at < ACTORS; at++)
        is_between |= actors[at].is_calling && &actors[at] != own;
    acts++;
    acts_between += is_between;
}

/* ---- what is printed */

static void say(const char *line, const char *reply) { printf("%s\t%s\n", line, reply); }

static void say_step(const actor *it, const char *what) { printf("step %d\t?%s\n", it->number, what); }

static void check(bool is_so, const char *what) {
    if (!is_so) {
        wrong++;
        say(what, "is not so");
    }
}

/* The reply, or which other number the call returned; as the world names it, but for its numbers. */
static void say_if(uint32_t number, uint32_t wanted, const char *line, const char *reply) {
    char other[32];
    snprintf(other, sizeof other, "number %u", number);
    say(line, number == wanted ? reply
        : number == TXC_CONFLICT ? "refused B2"
        : number == TXC_NOT_OPEN ? "refused O2"
        : number == TXC_MID_CALL ? "refused O5"
        : number == TXC_REFUSED ? "refused"
        : other);
}

/* How many are open, and which of them began first. */
static void check_open(void) {
    size_t count = 0, told = 0;
    txc_txn first = 0, oldest = 0;
    for (int at = 0; at < ACTORS; at++)
        if (actors[at].txn) {
            count++;
            first = first && first < actors[at].txn ? first : actors[at].txn;
        }
    check(txc_open_transactions(&site, &told) == TXC_DONE && told == count, "txc_open_transactions");
    check(txc_oldest_open(&site, &oldest) == (count ? TXC_DONE : TXC_MISS) && oldest == first, "txc_oldest_open");
}

/* ---- requests of an act */

static bool has_member(const actor *it, uint32_t *stamp) {
    uint64_t moment;
    return txc_member_at(&site, it->txn, 0, stamp, &moment) == TXC_DONE;
}

/* An act that pins the present first makes two requests more. */
static void say_requests(const actor *it, bool has_pinned, const char *what) {
    if (has_pinned) {
        say_step(it, "pinned");
        say_step(it, "added");
    }
    say_step(it, what);
}

static uint32_t ask_call(actor *it, const txc_key *key, value *got) {
    uint32_t stamp;
    bool is_inner = it->is_calling, has_pinned = !it->is_writing && !has_member(it, &stamp);
    count_act(it);
    uint32_t number = txc_call(&site, it->txn, key, got->bytes, sizeof got->bytes, &got->len);
    it->is_calling = true;
    if (!it->is_writing && !it->is_over && number != TXC_REFUSED)
        say_requests(it, has_pinned, number == TXC_COMPUTE ? "miss" : "hit");
    check(it->is_over || is_inner || number == TXC_DONE || number == TXC_COMPUTE, "a call's number");
    return number;
}

static uint32_t ask_rows(actor *it, const txc_query *query, size_t *count) {
    uint32_t stamp = 0, member = 0, told = txc_read_stamp(&site, it->txn, &stamp);
    count_act(it);
    uint32_t number = txc_query_rows(&site, it->txn, query, count);
    if (it->is_over)
        check(told == TXC_NOT_OPEN || told == TXC_CLOSED, "the stamp of what is over");
    else if (!it->is_writing && number == TXC_ANSWERED)
        check(has_member(it, &member) && told == (member == stamp ? TXC_DONE : TXC_MISS), "txc_read_stamp");
    if (number == TXC_ANSWERED && it->is_calling)
        say_requests(it, told == TXC_MISS, "rows");
    return number;
}

/* What a function gives: to the caller, or the function around. */
static uint32_t finish(actor *it, const value *made, value *got) {
    count_act(it);
    uint32_t number = txc_finish(&site, it->txn, made->bytes, made->len, got->bytes, sizeof got->bytes, &got->len);
    if (!it->is_writing && !it->is_over)
        say_step(it, "inserted");
    return number;
}

/* ---- functions */

static void add(value *to, const void *bytes, size_t len) {
    if (to->len + len > sizeof to->bytes)
        abort();
    memcpy(to->bytes + to->len, bytes, len);
    to->len += len;
}

static void add_number(value *to, size_t number) {
    char text[24];
    add(to, text, (size_t)snprintf(text, sizeof text, "%zu", number));
}

/* Adds the bodies, or the ids, of the rows of a query, with commas between them; true if the query was answered. */
static bool add_rows(actor *it, value *to, txc_query query, bool is_ids) {
    size_t count;
    pause_call(it);
    if (ask_rows(it, &query, &count) != TXC_ANSWERED)
        return false;
    for (size_t at = 0; at < count; at++) {
        txc_row row;
        uint8_t body[256];
        size_t len;
        if (txc_row_at(&site, it->txn, at, &row, body, sizeof body, &len) != TXC_DONE)
            return false;
        if (at)
            add(to, ",", 1);
        if (is_ids)
            add_number(to, row.id);
        else
            add(to, body, len);
    }
    return true;
}

static uint32_t call(actor *it, const txc_key *key, value *got);

/* The function that asks for one row again and again: in a world it is refused to ask on, and here the player gives its call up. */
static bool ask_for_ever(actor *it, uint32_t id) {
    value bodies = {{0}, 0};
    for (int at = 0; at < MOST_ASKS; at++, bodies.len = 0)
        if (!add_rows(it, &bodies, (txc_query){1, TXC_ID, id, 0}, false))
            return false;
    pause_call(it);
    if (!it->is_over)
        check(txc_give_up(&site, it->txn) == TXC_DONE, "a call that asks too often is given up");
    return false;
}

/* What the function gives; true if all that it asked was answered. */
static bool compute(actor *it, const txc_key *key, value *to) {
    size_t count;
    txc_query all = {1, TXC_ALL, 0, 0};
    txc_key list = {1, 1, {key->args[0]}};
    value inner = {{0}, 0};
    switch (key->function) {
    case 0:
        return add_rows(it, to, (txc_query){1, TXC_ID, key->args[0], 0}, false);
    case 1:
        return add_rows(it, to, (txc_query){1, TXC_GROUP, key->args[0], 0}, false);
    case 2:
        pause_call(it);
        if (call(it, &list, &inner) != TXC_ANSWERED)
            return false;
        add(to, inner.bytes, inner.len);
        add(to, ";", 1);
        return add_rows(it, to, (txc_query){1, TXC_ID, key->args[1], 0}, false);
    case 3:
        pause_call(it);
        if (ask_rows(it, &all, &count) != TXC_ANSWERED)
            return false;
        add_number(to, count);
        return true;
    case 4:
        pause_call(it);
        return call(it, key, &inner) == TXC_ANSWERED;
    case 5:
        return ask_for_ever(it, key->args[0]);
    default:
        return add_rows(it, to, (txc_query){1, TXC_RANGE, key->args[0], key->args[1]}, true);
    }
}

/* The value of a call, from the node or computed here. */
static uint32_t call(actor *it, const txc_key *key, value *got) {
    uint32_t number = ask_call(it, key, got);
    if (number != TXC_COMPUTE)
        return number;
    value made = {{0}, 0};
    if (!compute(it, key, &made))
        return TXC_REFUSED;
    pause_call(it);
    return finish(it, &made, got);
}

static void say_end(const actor *it, uint32_t number, const value *got) {
    char line[32], reply[2 * LONGEST_VALUE + 16] = "value -";
    for (size_t at = 0; at < got->len && at < LONGEST_VALUE; at++)
        sprintf(reply + strlen("value ") + 2 * at, "%02x", got->bytes[at]);
    snprintf(line, sizeof line, "finish %d", it->number);
    say_if(number, TXC_DONE, line, reply);
}

static void play_call(actor *it) {
    txc_key key = {0, 0, {0}};
    unsigned function;
    value got = {{0}, 0};
    int read = sscanf(it->line, "call %*d f%u(%" SCNu32 ",%" SCNu32 "", &function, &key.args[0], &key.args[1]);
    key.function = (uint8_t)function;
    key.count = (uint8_t)(read - 1);
    say(it->line, "started");
    it->is_calling = false;
    uint32_t number = call(it, &key, &got);
    it->is_calling = false;
    if (it->is_over)
        check(number == TXC_REFUSED || number == TXC_NOT_OPEN || number == TXC_CLOSED, "what a call that is over gives");
    else {
        if (number != TXC_DONE)
            check(txc_give_up(&site, it->txn) == TXC_MISS, "a refused call is no more");
        say_end(it, number, &got);
    }
    it->is_over = false;
}

static void *run(void *of) {
    actor *it = of;
    pthread_mutex_lock(&turns);
    while (whose != it->number)
        pthread_cond_wait(&handed, &turns);
    pthread_mutex_unlock(&turns);
    while (*it->line) {
        play_call(it);
        hand(KEEPER, it->number);
    }
    return NULL;
}

/* ---- changes and queries */

/* Has the transaction keep a change. */
static uint32_t change(txc_txn txn, const char *words) {
    unsigned table;
    uint32_t id, group;
    char body[300];
    if (sscanf(words, "put %u %" SCNu32 " %" SCNu32 " %299s", &table, &id, &group, body) == 4)
        return txc_put(&site, txn, (uint8_t)table, id, group, (const uint8_t *)body, strlen(body));
    if (sscanf(words, "remove %u %" SCNu32, &table, &id) == 2)
        return txc_remove(&site, txn, (uint8_t)table, id);
    return TXC_BAD_ARGUMENT;
}

static void note_given(txc_txn txn) {
    check(txn > last_given, "a later transaction has a greater number");
    last_given = txn;
}

static void play_keepers_change(const char *line) {
    txc_txn txn = 0;
    uint32_t stamp = 0, number = txc_begin_write(&site, &txn);
    char reply[32];
    note_given(txn);
    if (number == TXC_DONE)
        number = change(txn, line);
    if (number == TXC_DONE)
        number = txc_commit_write(&site, txn, &stamp);
    snprintf(reply, sizeof reply, "at %" PRIu32, stamp);
    say_if(number, TXC_DONE, line, reply);
    check(txc_abort(&site, txn) == TXC_NOT_OPEN, "what is committed is not open");
}

static bool read_query(const char *words, txc_query *query) {
    unsigned table;
    *query = (txc_query){0, TXC_ALL, 0, 0};
    if (sscanf(words, "by-id %u %" SCNu32, &table, &query->first) == 2)
        query->kind = TXC_ID;
    else if (sscanf(words, "by-group %u %" SCNu32, &table, &query->first) == 2)
        query->kind = TXC_GROUP;
    else if (sscanf(words, "range %u %" SCNu32 " %" SCNu32, &table, &query->first, &query->last) == 3)
        query->kind = TXC_RANGE;
    else if (sscanf(words, "all %u", &table) != 1)
        return false;
    query->table = (uint8_t)table;
    return true;
}

static void play_ask(actor *it, const char *line) {
    txc_query query;
    size_t count = 0, len;
    uint32_t number = read_query(line + strlen("ask 0 "), &query) ? ask_rows(it, &query, &count) : TXC_BAD_ARGUMENT;
    char reply[LONGEST] = "rows -";
    for (size_t at = 0, end = strlen("rows "); at < count; at++) {
        txc_row row;
        if (txc_row_at(&site, it->txn, at, &row, NULL, 0, &len) != TXC_NO_ROOM)
            number = TXC_MISS;
        end += (size_t)snprintf(reply + end, sizeof reply - end, at ? ",%" PRIu32 : "%" PRIu32, row.id);
    }
    say_if(number, TXC_ANSWERED, line, reply);
}

/* ---- transactions */

static void see(actor *it, uint32_t stamp) {
    if (stamp > it->floor)
        it->floor = stamp;
}

static void play_begin(actor *it, const char *line) {
    uint64_t now, staleness;
    uint32_t at_least = it->floor;
    if (sscanf(line, "ro %*d %" SCNu64 " %" SCNu64 " %" SCNu32, &now, &staleness, &at_least) != 3
        && sscanf(line, "session %*d %" SCNu64 " %" SCNu64, &now, &staleness) != 2)
        abort();
    it->is_writing = false;
    say_if(txc_begin(&site, now, staleness, at_least, &it->txn), TXC_DONE, line, "open");
    note_given(it->txn);
}

/* The same of one that writes, by its stamp too. */
static void play_begin_write(actor *it) {
    char line[32], reply[32];
    uint32_t stamp = 0, number = txc_begin_write(&site, &it->txn);
    note_given(it->txn);
    check(txc_read_stamp(&site, it->txn, &stamp) == TXC_DONE, "the stamp of one that writes");
    if (number == TXC_DONE && begins(it->line, "rw! ")) {
        check(txc_abort(&site, it->txn) == TXC_DONE, "an abort");
        number = txc_begin_write_at(&site, stamp, &it->txn);
        note_given(it->txn);
    }
    it->is_writing = true;
    snprintf(line, sizeof line, "rw %d", it->number);
    snprintf(reply, sizeof reply, "open %" PRIu32, stamp);
    say_if(number, TXC_DONE, line, reply);
}

static void play_pins(const actor *it, const char *line) {
    char reply[4 * LONGEST] = "pins";
    uint32_t stamp;
    uint64_t moment;
    for (size_t at = 0, end = strlen(reply); txc_member_at(&site, it->txn, at, &stamp, &moment) == TXC_DONE; at++)
        end += (size_t)snprintf(reply + end, sizeof reply - end, " %" PRIu32 "@%" PRIu64, stamp, moment);
    say(line, reply);
}

/* What an end leaves: its number is no more. */
static void end(actor *it, uint32_t number) {
    uint32_t stamp = 0;
    if (number == TXC_DONE) {
        check(txc_abort(&site, it->txn) == TXC_NOT_OPEN && txc_commit_write(&site, it->txn, &stamp) == TXC_NOT_OPEN, "what has ended is not open");
        it->txn = 0;
    }
}

/* A commit in mid-call, of one that reads. In a world a call that is to be refused has ended before its function asks that. */
static void play_early_commit(const actor *it) {
    char line[32];
    txc_receipt receipt;
    snprintf(line, sizeof line, "commit %d", it->number);
    if (it->is_calling && !it->is_writing && !strstr(it->line, " f4") && !strstr(it->line, " f5"))
        say_if(txc_commit(&site, it->txn, &receipt), TXC_DONE, line, "receipt");
}

static void play_commit(actor *it, const char *line) {
    char reply[64] = "receipt none";
    uint32_t number, stamp = 0;
    txc_receipt receipt = {0, false, 0, 0};
    if (it->is_writing) {
        number = txc_commit_write(&site, it->txn, &stamp);
        snprintf(reply, sizeof reply, "at %" PRIu32, stamp);
    } else {
        number = txc_commit(&site, it->txn, &receipt);
        stamp = receipt.has_pin ? receipt.stamp : 0;
        if (receipt.has_pin)
            snprintf(reply, sizeof reply, "receipt %" PRIu32 " %" PRIu64, receipt.stamp, receipt.moment);
    }
    if (number == TXC_DONE)
        see(it, stamp);
    say_if(number, TXC_DONE, line, reply);
    end(it, number);
}

/* In mid-call its functions are told so by the next act. */
static void play_abort(actor *it, const char *line) {
    uint32_t number = txc_abort(&site, it->txn);
    say_if(number, TXC_DONE, line, "aborted");
    it->is_over = it->is_calling;
    while (it->is_calling)
        resume(it);
    end(it, number);
}

static void play_tidy(const char *line) {
    uint64_t now, age;
    txc_kept kept = {0, 0, 0};
    char reply[64], sweep[32];
    if (sscanf(line, "tidy %" SCNu64 " %" SCNu64, &now, &age) != 2)
        abort();
    uint32_t number = txc_keep(&site, now, age, &kept);
    snprintf(reply, sizeof reply, "retired %zu horizon %" PRIu32, kept.retired, kept.horizon);
    say_if(number, TXC_DONE, line, reply);
    snprintf(sweep, sizeof sweep, "sweep 0 %" PRIu32, kept.horizon);
    snprintf(reply, sizeof reply, "swept %zu", kept.swept);
    say_if(number, TXC_DONE, sweep, reply);
}

static void play_pin(const char *line) {
    uint32_t stamp = 0;
    char reply[32];
    uint32_t number = txc_pin(&site, strtoull(line + strlen("pin "), NULL, 10), &stamp);
    snprintf(reply, sizeof reply, "at %" PRIu32, stamp);
    say_if(number, TXC_DONE, line, reply);
}

/* ---- scripts */

static void play_keepers_line(const char *line) {
    count_act(NULL);
    if (begins(line, "tidy "))
        play_tidy(line);
    else if (begins(line, "pin "))
        play_pin(line);
    else
        play_keepers_change(line);
}

/* A line of an actor, who is in no call. */
static void play_actors_line(actor *it) {
    const char *line = it->line;
    if (begins(line, "call ")) {
        resume(it);
        return;
    }
    count_act(it);
    if (begins(line, "ro ") || begins(line, "session "))
        play_begin(it, line);
    else if (begins(line, "rw"))
        play_begin_write(it);
    else if (begins(line, "ask "))
        play_ask(it, line);
    else if (begins(line, "write "))
        say_if(change(it->txn, line + strlen("write 0 ")), TXC_DONE, line, "kept");
    else if (begins(line, "pins "))
        play_pins(it, line);
    else if (begins(line, "commit "))
        play_commit(it, line);
    else
        say(line, "no line of these");
}

static void play_line(const char *line) {
    int number;
    if (begins(line, "tidy ") || begins(line, "pin ") || begins(line, "put ") || begins(line, "remove ")) {
        play_keepers_line(line);
    } else if (sscanf(line, "%*s %d", &number) == 1 && number >= 0 && number < ACTORS) {
        actor *it = &actors[number];
        if (begins(line, "go ")) {
            if (it->is_calling)
                resume(it);
        } else if (begins(line, "commit! ")) {
            play_early_commit(it);
        } else if (begins(line, "abort ")) {
            count_act(it);
            play_abort(it, line);
        } else {
            while (it->is_calling)
                resume(it);
            snprintf(it->line, sizeof it->line, "%s", line);
            play_actors_line(it);
        }
    }
    check_open();
}

/* What is open at the end of a script ends with the site, in mid-call too. */
static bool close_site(void) {
    bool is_closed = txc_site_close(&site) == TXC_DONE;
    for (int at = 0; at < ACTORS; at++) {
        actors[at].is_over = actors[at].is_calling;
        while (actors[at].is_calling)
            resume(&actors[at]);
        actors[at].txn = 0;
        actors[at].floor = 0;
    }
    return is_closed;
}

static bool play(size_t events, size_t capacity, size_t recent, uint64_t renew, size_t store, const char *name) {
    FILE *file = fopen(name, "r");
    char line[LONGEST];
    txc_site_settings settings = {sizeof settings, events, capacity, recent, renew, 0, store};
    site = (txc_site)TXC_SITE_CLOSED;
    last_given = 0;
    if (!file || txc_site_open(&site, &settings) != TXC_DONE)
        return false;
    printf("== %s\n", name);
    while (fgets(line, sizeof line, file)) {
        line[strcspn(line, "\n")] = 0;
        play_line(line);
    }
    fclose(file);
    return close_site();
}

int main(int count, char **words) {
    FILE *list = count == 3 ? fopen(words[1], "r") : NULL;
    size_t events, capacity, recent, store = count == 3 ? strtoul(words[2], NULL, 10) : TXC_STORE_SQL;
    uint64_t renew;
    char name[LONGEST];
    bool is_well = list != NULL;
    for (int at = 0; at < ACTORS; at++) {
        actors[at].number = at;
        is_well &= !pthread_create(&actors[at].thread, NULL, run, &actors[at]);
    }
    while (list && fscanf(list, "%zu %zu %zu %" SCNu64 " %511s", &events, &capacity, &recent, &renew, name) == 5)
        is_well &= play(events, capacity, recent, renew, store, name);
    for (int at = 0; at < ACTORS; at++) {
        *actors[at].line = 0;
        pthread_mutex_lock(&turns);
        whose = at;
        pthread_cond_broadcast(&handed);
        pthread_mutex_unlock(&turns);
        pthread_join(actors[at].thread, NULL);
    }
    if (list)
        fclose(list);
    printf("== acts\nacts %ld between %ld\n", acts, acts_between);
    return !is_well || wrong;
}
