/* A heap that refuses one allocation. A caller which includes this is the library's heap itself, so it is linked with
 * the archive that has none, crates/fibs_c/out/libfibs_c.a.
 */
#include <stdbool.h>
#include <stddef.h>
#include <stdint.h>
#include <stdio.h>
#include <stdlib.h>

struct tried { bool ok; void *at; };

struct tried rattle_alloc(size_t size, size_t align);
struct tried rattle_realloc(void *at, size_t kept, size_t size, size_t align);
void rattle_dealloc(void *at);

/* How many allocations go before the one that is refused; how many blocks are live; how many were refused. */
static long left, live, refused;
static char nothing;

static struct tried found(void *at) {
    struct tried tried = { at != NULL, at != NULL ? at : &nothing };
    return tried;
}

/* Whether this allocation is the one that is refused. */
static bool is_refused(void) {
    if (left-- != 0) {
        return false;
    }
    refused++;
    return true;
}

struct tried rattle_alloc(size_t size, size_t align) {
    if (is_refused()) {
        return found(NULL);
    }
    live++;
    return found(malloc(size > 0 ? size : align));
}

struct tried rattle_realloc(void *at, size_t kept, size_t size, size_t align) {
    (void)kept;
    return is_refused() ? found(NULL) : found(realloc(at, size > 0 ? size : align));
}

void rattle_dealloc(void *at) {
    live--;
    free(at);
}

/* From now on the allocation of this number, counted from 0, is refused. */
static void refuse(long number) {
    left = number;
    refused = 0;
    live = 0;
}


static int failed;

static void check(bool holds, const char *what, long number) {
    if (!holds) {
        printf("FAILED %s, allocation %ld refused\n", what, number);
        failed++;
    }
}
