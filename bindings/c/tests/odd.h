/* What the odd uses of a site share: checks that are counted, and allocations that are refused.
 *
 * Linked with --wrap=malloc and --wrap=realloc. */
#include "txc.h"
#include <stdio.h>
#include <stdlib.h>
#include <string.h>

static int uses, wrong;

static void check(bool is_so, const char *use, const char *file, int line) {
    uses++;
    if (!is_so) {
        wrong++;
        printf("%s:%d: %s\n", file, line, use);
    }
}

#define CHECK(use) check((use), #use, __FILE__, __LINE__)

static long until_refusal = -1; /* how many allocations are granted first; -1: all are */
static long refusals;
static size_t largest;          /* bytes of the largest allocation since it was set to 0 */

void *__real_malloc(size_t size);
void *__real_realloc(void *at, size_t size);

static bool is_refused(void) {
    if (until_refusal < 0 || until_refusal-- > 0)
        return false;
    refusals++;
    return true;
}

static void note(size_t size) { largest = size > largest ? size : largest; }

void *__wrap_malloc(size_t size) {
    note(size);
    return is_refused() ? NULL : __real_malloc(size);
}

void *__wrap_realloc(void *at, size_t size) {
    note(size);
    return is_refused() ? NULL : __real_realloc(at, size);
}

/* How many allocations there are until all of it is done, each refused in its turn; -1 if it is not done with none refused. */
static long refuse_each(bool (*is_whole)(size_t), size_t events) {
    long refused = 0;
    for (long granted = 0;; granted++) {
        until_refusal = granted;
        refusals = 0;
        bool is_done = is_whole(events);
        until_refusal = -1;
        if (!refusals)
            return is_done ? refused : -1;
        refused++;
    }
}
