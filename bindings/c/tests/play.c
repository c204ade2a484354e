/* Plays scripts of mode node and report through the library, as `txcache` does, and prints the same.
 *
 * usage: play LIST            each line of LIST: CAPACITY RECENT MODE FILE; prints `== MODE FILE`, the replies, and `status N`
 *        play --refuse LIST   plays each script again and again, with the first allocation refused, then the second, and so
 *                             on, until none is left to refuse. A call that was refused memory is made again, and then
 *                             all replies must be those of a play with nothing refused.
 *
 * Linked with --wrap=malloc and --wrap=realloc. */
#include "txc.h"
#include <stdarg.h>
#include <stdio.h>
#include <stdlib.h>
#include <string.h>

/* The most bytes of a value of a script: those with more this player refuses itself, and so does `txcache`, whose limit it is. */
enum { LONGEST_VALUE = 1024 };

/* ---- allocations that are refused */

static long until_refusal = -1;      /* how many allocations are granted first; -1: all are */
static long refusals;
static bool is_library;              /* a call of the library is under way */

void *__real_malloc(size_t size);
void *__real_realloc(void *at, size_t size);

static bool is_refused(void) {
    if (!is_library || until_refusal < 0)
        return false;
    if (until_refusal-- > 0)
        return false;
    refusals++;
    return true;
}

void *__wrap_malloc(size_t size) { return is_refused() ? NULL : __real_malloc(size); }
void *__wrap_realloc(void *at, size_t size) { return is_refused() ? NULL : __real_realloc(at, size); }

/* Makes a call, and once more where it was refused memory: one allocation alone is refused. */
#define CALL(number, call) \
    do { \
        is_library = true; \
        number = (call); \
        if (number == TXC_NO_MEMORY && refusals == 1) \
            number = (call); \
        is_library = false; \
    } while (0)

/* ---- what is printed */

typedef struct {
    char *bytes;
    size_t len, room;
} text;

static void put(text *out, const char *form, ...) {
    char line[4096];
    va_list words;
    va_start(words, form);
    size_t len = (size_t)vsnprintf(line, sizeof line, form, words);
    va_end(words);
    if (len >= sizeof line)
        abort();
    if (out->len + len > out->room) {
        out->room = 2 * (out->len + len);
        out->bytes = realloc(out->bytes, out->room);
        if (!out->bytes)
            abort();
    }
    memcpy(out->bytes + out->len, line, len);
    out->len += len;
}

static void put_reach(text *out, txc_reach reach) {
    put(out, "[%u,%u) %s", reach.lo, reach.known + 1, reach.is_still ? "still" : "closed");
}

static void put_key(text *out, const txc_key *key) {
    put(out, "f%u(", key->function);
    for (unsigned n = 0; n < key->count; n++)
        put(out, n ? ",%u" : "%u", key->args[n]);
    put(out, ")");
}

/* ---- words */

/* Reads a number of at most `most` from the front. */
static bool read_number(const char **at, const char *end, uint64_t most, uint64_t *number) {
    const char *begin = *at;
    uint64_t value = 0;
    while (*at < end && **at >= '0' && **at <= '9') {
        value = 10 * value + (uint64_t)(*(*at)++ - '0');
        if (value > most)
            return false;
    }
    if (*at == begin || (*begin == '0' && *at != begin + 1))
        return false;
    *number = value;
    return true;
}

static bool read_text(const char **at, const char *end, const char *text) {
    size_t len = strlen(text);
    if ((size_t)(end - *at) < len || memcmp(*at, text, len))
        return false;
    *at += len;
    return true;
}

typedef struct {
    const char *at, *end;
} word;

static bool is_word(word it, const char *text) {
    return read_text(&it.at, it.end, text) && it.at == it.end;
}

enum { LAST_SCRIPT_STAMP = 1048576 }; /* of a script: a node takes later ones */

static bool read_stamp(word it, uint32_t *stamp) {
    uint64_t number;
    if (!read_number(&it.at, it.end, LAST_SCRIPT_STAMP, &number) || it.at != it.end)
        return false;
    *stamp = (uint32_t)number;
    return true;
}

static bool read_key(word it, txc_key *key) {
    uint64_t number;
    *key = (txc_key){0, 0, {0}};
    if (!read_text(&it.at, it.end, "f") || !read_number(&it.at, it.end, TXC_LAST_FUNCTION, &number) || !read_text(&it.at, it.end, "("))
        return false;
    key->function = (uint8_t)number;
    if (!read_text(&it.at, it.end, ")")) {
        do {
            if (key->count == TXC_MAX_ARGS || !read_number(&it.at, it.end, UINT32_MAX, &number))
                return false;
            key->args[key->count++] = (uint32_t)number;
        } while (read_text(&it.at, it.end, ","));
        if (!read_text(&it.at, it.end, ")"))
            return false;
    }
    return it.at == it.end;
}

static bool read_tag(word *it, txc_tag *tag) {
    uint64_t number;
    bool is_short = !read_text(&it->at, it->end, "t");
    if (!read_number(&it->at, it->end, TXC_LAST_TABLE, &number))
        return false;
    *tag = (txc_tag){(uint8_t)number, TXC_ALL, 0};
    if (read_text(&it->at, it->end, is_short ? "/?" : ":?"))
        return true;
    if (read_text(&it->at, it->end, is_short ? "/id/" : ":id="))
        tag->kind = TXC_ID;
    else if (read_text(&it->at, it->end, is_short ? "/grp/" : ":grp="))
        tag->kind = TXC_GROUP;
    else
        return false;
    if (!read_number(&it->at, it->end, UINT32_MAX, &number))
        return false;
    tag->number = (uint32_t)number;
    return true;
}

enum { MOST = 4096 };                /* bytes of a line */

typedef struct {
    txc_tag tags[MOST];
    size_t count;
} tag_list;

static bool read_tags(word it, tag_list *list) {
    list->count = 0;
    if (is_word(it, "-"))
        return true;
    do {
        if (!read_tag(&it, &list->tags[list->count++]))
            return false;
    } while (read_text(&it.at, it.end, ","));
    return it.at == it.end;
}

static int digit(char c) { return c >= '0' && c <= '9' ? c - '0' : c >= 'a' && c <= 'f' ? c - 'a' + 10 : -1; }

static bool read_bytes(word it, uint8_t *bytes, size_t *len) {
    *len = 0;
    if (is_word(it, "-"))
        return true;
    if (it.at == it.end || (it.end - it.at) % 2)
        return false;
    for (; it.at < it.end; it.at += 2) {
        if (digit(it.at[0]) < 0 || digit(it.at[1]) < 0)
            return false;
        bytes[(*len)++] = (uint8_t)(16 * digit(it.at[0]) + digit(it.at[1]));
    }
    return true;
}

/* ---- steps */

typedef struct {
    txc_node node;
    bool is_report;
    text out;
    uint8_t functions[TXC_LAST_FUNCTION + 1];      /* those that were named, in the order of their first lines */
    size_t function_count;
    uint64_t events, closed, swept;
    bool is_refused;
} play;

static const char *refusal(uint32_t number) {
    switch (number) {
    case TXC_EMPTY_RANGE: return "N1";
    case TXC_BAD_REACH: return "N2";
    case TXC_OUT_OF_ORDER: return "N3";
    case TXC_VALUE_TOO_LONG: return "N4";
    case TXC_NO_MEMORY: return "memory";
    default: return NULL;
    }
}

/* Whether the call was refused, which is printed. */
static bool put_refusal(play *it, uint32_t number, uint32_t processed) {
    if (number < TXC_CLOSED)
        return false;
    const char *name = refusal(number);
    if (!name)
        abort();
    it->is_refused = true;
    if (!it->is_report) {
        put(&it->out, "refused %s", name);
        put(&it->out, number == TXC_OUT_OF_ORDER ? " %u\n" : "\n", processed);
    }
    return true;
}

static void name(play *it, uint8_t function) {
    if (!memchr(it->functions, function, it->function_count))
        it->functions[it->function_count++] = function;
}

static void lookup(play *it, const txc_key *key, uint32_t lo, uint32_t hi) {
    /* in turns a buffer of just the room that is told, and one of all the room that a value may need */
    static bool is_short;
    static uint8_t value[LONGEST_VALUE];
    txc_reach reach = {0, 0, false};
    size_t len = 0;
    uint32_t number;
    CALL(number, txc_node_lookup(&it->node, key, lo, hi, &reach, value, sizeof value, &len));
    if (put_refusal(it, number, 0))
        return;
    name(it, key->function);
    is_short = !is_short;
    if (is_short && number == TXC_DONE && !it->is_report) {
        uint8_t *room = malloc(len + 1);
        if (len && txc_node_lookup(&it->node, key, lo, hi, &reach, room, len - 1, &len) != TXC_NO_ROOM)
            abort();
        if (txc_node_lookup(&it->node, key, lo, hi, &reach, room, len, &len) != TXC_DONE || memcmp(room, value, len))
            abort();
        free(room);
    }
    if (it->is_report)
        return;
    if (number == TXC_MISS) {
        put(&it->out, "miss\n");
        return;
    }
    put(&it->out, "hit ");
    put_reach(&it->out, reach);
    put(&it->out, len ? " " : " -");
    for (size_t n = 0; n < len; n++)
        put(&it->out, "%02x", value[n]);
    put(&it->out, "\n");
}

static void insert(play *it, const txc_key *key, txc_reach reach, const tag_list *tags, const uint8_t *value, size_t len) {
    txc_stored stored;
    uint32_t number;
    if (len > LONGEST_VALUE)
        number = reach.known < reach.lo ? TXC_BAD_REACH : TXC_VALUE_TOO_LONG;
    else
        CALL(number, txc_node_insert(&it->node, key, &reach, tags->tags, tags->count, value, len, &stored));
    if (put_refusal(it, number, 0))
        return;
    name(it, key->function);
    if (it->is_report)
        return;
    if (number == TXC_KEPT) {
        put(&it->out, "kept\n");
        return;
    }
    put(&it->out, "stored ");
    put_reach(&it->out, stored.reach);
    if (stored.has_evicted) {
        put(&it->out, " evicted ");
        put_key(&it->out, &stored.evicted);
        put(&it->out, "@%u", stored.evicted_lo);
    }
    put(&it->out, "\n");
}

static void event(play *it, uint32_t stamp, const tag_list *tags) {
    size_t closed = 0;
    uint32_t processed = 0, number;
    CALL(number, txc_node_event(&it->node, stamp, tags->tags, tags->count, &closed, &processed));
    if (put_refusal(it, number, processed))
        return;
    it->events++;
    it->closed += closed;
    if (!it->is_report)
        put(&it->out, "closed %zu\n", closed);
}

static void sweep(play *it, uint32_t horizon) {
    size_t swept = 0;
    uint32_t number;
    CALL(number, txc_node_sweep(&it->node, horizon, &swept));
    if (put_refusal(it, number, 0))
        return;
    it->swept += swept;
    if (!it->is_report)
        put(&it->out, "swept %zu\n", swept);
}

/* ---- lines */

/* Does what the words ask for; false if they ask for nothing. */
static bool obey(play *it, const word *words, size_t count) {
    static tag_list tags;
    static uint8_t value[MOST];
    txc_key key;
    txc_reach reach;
    uint32_t lo, hi;
    size_t len;
    if (is_word(words[0], "lookup") && count == 4) {
        if (!read_key(words[1], &key) || !read_stamp(words[2], &lo) || !read_stamp(words[3], &hi))
            return false;
        lookup(it, &key, lo, hi);
        return true;
    }
    if (is_word(words[0], "insert") && count == 7) {
        reach.is_still = is_word(words[4], "still");
        if (!read_key(words[1], &key) || !read_stamp(words[2], &reach.lo) || !read_stamp(words[3], &reach.known)
            || !(reach.is_still || is_word(words[4], "closed")) || !read_tags(words[5], &tags) || !read_bytes(words[6], value, &len))
            return false;
        insert(it, &key, reach, &tags, value, len);
        return true;
    }
    if (is_word(words[0], "event") && count == 3) {
        if (!read_stamp(words[1], &lo) || !read_tags(words[2], &tags))
            return false;
        event(it, lo, &tags);
        return true;
    }
    if (is_word(words[0], "sweep") && count == 2) {
        if (!read_stamp(words[1], &lo))
            return false;
        sweep(it, lo);
        return true;
    }
    return false;
}

/* Plays a line; false if it is malformed. */
static bool play_line(play *it, const char *line, size_t len) {
    if (len > MOST)
        return false;
    for (size_t n = 0; n < len; n++)
        if (line[n] < 0x20 || line[n] > 0x7e)
            return false;
    if (!len || line[0] == '#')
        return true;
    word words[8];
    size_t count = 0;
    for (const char *at = line, *end = line + len;; at++) {
        const char *begin = at;
        while (at < end && *at != ' ')
            at++;
        if (at == begin || count == 8)
            return false;
        words[count++] = (word){begin, at};
        if (at == end)
            break;
    }
    return obey(it, words, count);
}

static void put_report(play *it) {
    for (size_t n = 0; n < it->function_count; n++) {
        txc_counts counts;
        if (txc_node_count(&it->node, it->functions[n], &counts) != TXC_DONE)
            abort();
        put(&it->out, "f%u lookups %llu hits %llu stored %llu kept %llu evicted %llu\n", it->functions[n],
            (unsigned long long)counts.lookups, (unsigned long long)counts.hits, (unsigned long long)counts.stored,
            (unsigned long long)counts.kept, (unsigned long long)counts.evicted);
    }
    put(&it->out, "total events %llu closed %llu swept %llu\n", (unsigned long long)it->events,
        (unsigned long long)it->closed, (unsigned long long)it->swept);
}

/* Plays a script into a text, which the caller frees. */
static text play_script(const char *script, size_t len, size_t capacity, size_t recent, bool is_report) {
    play it = {TXC_NODE_CLOSED, is_report, {NULL, 0, 0}, {0}, 0, 0, 0, 0, false};
    uint32_t number;
    bool is_malformed = false;
    CALL(number, txc_node_open(&it.node, capacity, recent));
    if (number != TXC_DONE)
        abort();
    size_t line = 0;
    for (size_t at = 0; at < len && !is_malformed;) {
        const char *end = memchr(script + at, '\n', len - at);
        size_t line_len = end ? (size_t)(end - (script + at)) : len - at;
        line++;
        is_malformed = !play_line(&it, script + at, line_len);
        at += line_len + 1;
    }
    if (is_malformed)
        put(&it.out, "line %zu: malformed\n", line);
    else if (is_report)
        put_report(&it);
    put(&it.out, "status %d\n", it.is_refused || is_malformed);
    if (txc_node_close(&it.node) != TXC_DONE || it.node.is_open)
        abort();
    return it.out;
}

/* Refuses each allocation of the script in its turn; returns how many there are. */
static long refuse_each(const char *script, size_t len, size_t capacity, size_t recent, bool is_report, text wanted) {
    for (long granted = 0;; granted++) {
        until_refusal = granted;
        refusals = 0;
        text got = play_script(script, len, capacity, recent, is_report);
        bool is_same = got.len == wanted.len && !memcmp(got.bytes, wanted.bytes, got.len);
        free(got.bytes);
        until_refusal = -1;
        if (!is_same) {
            printf("allocation %ld refused: other replies\n", granted + 1);
            exit(1);
        }
        if (!refusals)
            return granted;
    }
}

static char *read_file(const char *name, size_t *len) {
    FILE *file = fopen(name, "rb");
    if (!file)
        abort();
    static char bytes[1 << 22];
    *len = fread(bytes, 1, sizeof bytes, file);
    fclose(file);
    char *script = malloc(*len + 1);
    memcpy(script, bytes, *len);
    return script;
}

int main(int count, char **words) {
    bool is_refusing = count == 3 && !strcmp(words[1], "--refuse");
    FILE *list = count == 2 || is_refusing ? fopen(words[count - 1], "r") : NULL;
    if (!list) {
        fprintf(stderr, "usage: play [--refuse] LIST\n");
        return 2;
    }
    size_t capacity, recent;
    char mode[16], name[4000];
    while (fscanf(list, "%zu %zu %15s %3999s", &capacity, &recent, mode, name) == 4) {
        size_t len;
        char *script = read_file(name, &len);
        bool is_report = !strcmp(mode, "report");
        text out = play_script(script, len, capacity, recent, is_report);
        if (is_refusing)
            printf("%s: %ld allocations refused\n", name, refuse_each(script, len, capacity, recent, is_report, out));
        else {
            printf("== %s %s\n", mode, name);
            fwrite(out.bytes, 1, out.len, stdout);
        }
        free(out.bytes);
        free(script);
    }
    fclose(list);
    return 0;
}
