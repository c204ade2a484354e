/* An allocator for LD_PRELOAD that refuses allocations of the process that loads it: it returns NULL, and errno is
 * ENOMEM.
 *
 * REFUSE_AT=N        refuses the N-th allocation, once
 * REFUSE_EACH=F      refuses each allocation whose number stands in the file REFUSE_NUMBERS, in a process of its own: a
 *                    fork at that allocation, in which it alone is refused, and which runs to its end while this process
 *                    waits. It appends to F a line for each: the number and the status, and what was said last where
 *                    the status is not 0 or the output does not end with `test result: ok`. A status below 0 is a
 *                    signal's. REFUSE_SECONDS is how long a fork may run; SIGALRM stops it
 * REFUSE_NUMBERS=F   words of 8 bytes that ascend
 * REFUSE_PLACES=F    with REFUSE_EACH, threes of words that ascend, each an allocation too: in the row of this number, from
 *                    1 on or 0 before the first, the so manieth, and the number to be told. The fork is made where the
 *                    row begins
 * REFUSE_COUNT=F     keeps in the file F, as a word of 8 bytes, how many allocations there were
 * REFUSE_ROWS=F      appends to F a line for each row of a table that begins: how many allocations there were before, and
 *                    the nanoseconds of processor time so far
 *
 * A call of getppid says that a row of a table begins, whose rows have nothing in common. A process in which an
 * allocation was refused in a row has done with it then: it ends with the status 77. scripts/rows.py writes such calls.
 *
 * A fork has but the thread that made it. So none is made while there are more threads, and the line is `NUMBER threads`.
 *
 * Every call that may return NULL is an allocation, a realloc to a smaller size too. Those of the loader, before the
 * program's own code, are not counted.
 *
 * cc -shared -fPIC -O2 -o refuse.so refuse.c
 */
#define _GNU_SOURCE
#include <errno.h>
#include <fcntl.h>
#include <stdatomic.h>
#include <stdbool.h>
#include <stddef.h>
#include <stdint.h>
#include <stdio.h>
#include <stdlib.h>
#include <string.h>
#include <sys/mman.h>
#include <sys/prctl.h>
#include <sys/stat.h>
#include <sys/wait.h>
#include <time.h>
#include <unistd.h>

void *__libc_malloc(size_t);
void *__libc_calloc(size_t, size_t);
void *__libc_realloc(void *, size_t);
void *__libc_memalign(size_t, size_t);

enum { ROW_ENDED = 77, SECONDS = 60 };

static const char WELL[] = "\ntest result: ok\n";

static _Atomic uint64_t own_count;
static _Atomic uint64_t *count;
static uint64_t refused_at;

/* How many rows have begun, and at the beginning of which row a process that was refused memory ends: 0 is none. */
static _Atomic uint64_t rows;
static _Atomic uint64_t ends_at_row;
static int row_file = -1;

/* The file for the verdicts, or -1, what is refused in forks, and where a fork writes what is said. */
static int each = -1;
static const uint64_t *numbers;
static size_t number_count;
static const uint64_t *places;
static size_t places_left;
static unsigned seconds = SECONDS;
static int out = -1;
static int err = -1;

/* The count lies in the file from the first allocation on, since a process may end by _exit. */
static _Atomic uint64_t *count_in(const char *name)
{
    int file = name ? open(name, O_RDWR | O_CREAT, 0600) : -1;
    if (file < 0 || ftruncate(file, sizeof *count))
        return &own_count;
    void *made = mmap(NULL, sizeof *count, PROT_READ | PROT_WRITE, MAP_SHARED, file, 0);
    close(file);
    return made == MAP_FAILED ? &own_count : made;
}

/* The words of the file, or none. */
static const uint64_t *words_of(const char *name, size_t *word_count)
{
    struct stat about;
    int file = name ? open(name, O_RDONLY) : -1;
    void *made = MAP_FAILED;
    if (file >= 0 && !fstat(file, &about) && about.st_size)
        made = mmap(NULL, about.st_size, PROT_READ, MAP_PRIVATE, file, 0);
    if (file >= 0)
        close(file);
    *word_count = made == MAP_FAILED ? 0 : about.st_size / sizeof(uint64_t);
    return made;
}

static int appended(const char *name)
{
    return name ? open(name, O_WRONLY | O_CREAT | O_APPEND | O_CLOEXEC, 0600) : -1;
}

/* A row is done with where the next one begins. What is refused before the first row is judged by the first. */
static void now_refused(void)
{
    uint64_t begun = rows;
    ends_at_row = (begun ? begun : 1) + 1;
}

static bool is_wanted(uint64_t number)
{
    size_t low = 0, high = number_count;
    while (low < high) {
        size_t middle = low + (high - low) / 2;
        if (numbers[middle] < number)
            low = middle + 1;
        else
            high = middle;
    }
    return low < number_count && numbers[low] == number;
}

/* Each thread has a folder there, beside the two links that every folder has. */
static bool has_threads(void)
{
    struct stat about;
    return stat("/proc/self/task", &about) || about.st_nlink != 3;
}

/* The end of what was written there, of so many bytes at most. */
static size_t end_of(int file, char *text, size_t room)
{
    off_t length = lseek(file, 0, SEEK_END);
    off_t from = length > (off_t)room ? length - (off_t)room : 0;
    ssize_t got = pread(file, text, room, from);
    return got < 0 ? 0 : got;
}

static bool ends_well(void)
{
    char text[sizeof WELL - 1];
    return end_of(out, text, sizeof text) == sizeof text && !memcmp(text, WELL, sizeof text);
}

/* The last line that was written there, which may be empty. */
static size_t last_line(int file, char *text, size_t room)
{
    size_t length = end_of(file, text, room);
    while (length && text[length - 1] == '\n')
        length--;
    size_t start = length;
    while (start && text[start - 1] != '\n')
        start--;
    memmove(text, text + start, length - start);
    return length - start;
}

static void tell(uint64_t number, const char *how, const char *text, size_t length)
{
    char line[768];
    int head = snprintf(line, sizeof line, "%llu %s%s", (unsigned long long)number, how, length ? " " : "");
    memcpy(line + head, text, length);
    line[head + length] = '\n';
    if (write(each, line, head + length + 1) < 0)
        _exit(1);
}

static void tell_status(uint64_t number, int status)
{
    char how[16], text[512];
    size_t length = 0;
    int ended = WIFSIGNALED(status) ? -WTERMSIG(status) : WEXITSTATUS(status);
    if (ended != ROW_ENDED && (ended != 0 || !ends_well())) {
        length = last_line(err, text, sizeof text);
        if (!length)
            length = last_line(out, text, sizeof text);
        if (!length)
            length = snprintf(text, sizeof text, "nothing was said");
    }
    snprintf(how, sizeof how, "%d", ended);
    tell(number, how, text, length);
}

static bool empty(int file)
{
    return ftruncate(file, 0) == 0 && lseek(file, 0, SEEK_SET) == 0;
}

/* Whether this process is the fork in which the allocation is refused. */
static bool forks(uint64_t number)
{
    int before = errno, status;
    if (has_threads()) {
        tell(number, "threads", "", 0);
        errno = before;
        return false;
    }
    pid_t fork_id = empty(out) && empty(err) ? fork() : -1;
    if (fork_id == 0) {
        each = -1;
        prctl(PR_SET_PDEATHSIG, SIGKILL);
        dup2(out, STDOUT_FILENO);
        dup2(err, STDERR_FILENO);
        alarm(seconds);
        return true;
    }
    if (fork_id < 0) {
        tell(number, "1", "no fork was made", 16);
    } else {
        while (waitpid(fork_id, &status, 0) < 0 && errno == EINTR)
            ;
        tell_status(number, status);
    }
    errno = before;
    return false;
}

/* Forks for each place in the row that begins now. In such a fork the allocation is still to come. */
static void fork_for_row(uint64_t row)
{
    /* a thread that has been joined is there for a moment more */
    for (int turn = 0; turn < 1000 && places_left && has_threads(); turn++)
        usleep(1000);
    for (; places_left >= 3 && places[0] <= row; places += 3, places_left -= 3)
        if (places[0] == row && forks(places[2])) {
            refused_at = *count + places[1];
            places_left = 0;
            return;
        }
}

__attribute__((constructor)) static void begin(void)
{
    const char *at = getenv("REFUSE_AT"), *given = getenv("REFUSE_SECONDS");
    refused_at = at ? strtoull(at, NULL, 10) : 0;
    seconds = given ? strtoul(given, NULL, 10) : SECONDS;
    row_file = appended(getenv("REFUSE_ROWS"));
    each = appended(getenv("REFUSE_EACH"));
    /* the forks would count in the file too */
    count = count_in(each < 0 ? getenv("REFUSE_COUNT") : NULL);
    if (each >= 0) {
        numbers = words_of(getenv("REFUSE_NUMBERS"), &number_count);
        places = words_of(getenv("REFUSE_PLACES"), &places_left);
        out = memfd_create("out", 0);
        err = memfd_create("err", 0);
        fork_for_row(0);
    }
}

static bool refuses(void)
{
    if (!count)
        return false;
    uint64_t number = atomic_fetch_add(count, 1) + 1;
    if (number != refused_at && !(each >= 0 && is_wanted(number) && forks(number)))
        return false;
    now_refused();
    errno = ENOMEM;
    return true;
}

pid_t getppid(void)
{
    uint64_t begun = atomic_fetch_add(&rows, 1) + 1;
    if (ends_at_row && begun >= ends_at_row)
        _exit(ROW_ENDED);
    fork_for_row(begun);
    if (row_file >= 0) {
        struct timespec used;
        char line[64];
        clock_gettime(CLOCK_PROCESS_CPUTIME_ID, &used);
        int length = snprintf(line, sizeof line, "%llu %lld\n", (unsigned long long)*count,
                              used.tv_sec * 1000000000LL + used.tv_nsec);
        if (write(row_file, line, length) < 0)
            _exit(1);
    }
    return 1;
}

void *malloc(size_t size)
{
    return refuses() ? NULL : __libc_malloc(size);
}

void *calloc(size_t number, size_t size)
{
    return refuses() ? NULL : __libc_calloc(number, size);
}

void *realloc(void *block, size_t size)
{
    return refuses() ? NULL : __libc_realloc(block, size);
}

void *reallocarray(void *block, size_t number, size_t size)
{
    size_t whole;
    if (__builtin_mul_overflow(number, size, &whole)) {
        errno = ENOMEM;
        return NULL;
    }
    return realloc(block, whole);
}

void *memalign(size_t alignment, size_t size)
{
    return refuses() ? NULL : __libc_memalign(alignment, size);
}

void *aligned_alloc(size_t alignment, size_t size)
{
    return memalign(alignment, size);
}

int posix_memalign(void **block, size_t alignment, size_t size)
{
    if (alignment % sizeof(void *) != 0 || (alignment & (alignment - 1)) != 0 || alignment == 0)
        return EINVAL;
    void *made = memalign(alignment, size);
    if (!made)
        return ENOMEM;
    *block = made;
    return 0;
}
