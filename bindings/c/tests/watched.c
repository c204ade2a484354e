/* What the toolchain's compiler calls where the sanitizer of threads watches its code, and the runtimes of older compilers lack: each does what the function
 * of C does, which every runtime watches. Where a runtime has one of its own, that is taken. */
#include <string.h>

#define LACKING __attribute__((weak))

LACKING void *__tsan_memcpy(void *to, const void *from, size_t count);
LACKING void *__tsan_memmove(void *to, const void *from, size_t count);
LACKING void *__tsan_memset(void *to, int byte, size_t count);

void *__tsan_memcpy(void *to, const void *from, size_t count) { return memcpy(to, from, count); }
void *__tsan_memmove(void *to, const void *from, size_t count) { return memmove(to, from, count); }
void *__tsan_memset(void *to, int byte, size_t count) { return memset(to, byte, count); }
