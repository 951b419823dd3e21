/* Refuses each of the library's requests for memory once. The call must then return ZX_NO_MEMORY and leave the segment
   unchanged, or succeed if it can do without the memory. All other calls request no memory. This file replaces
   heap.c. */
#include "zaluxhoni.h"

#include <stdio.h>
#include <stdlib.h>
#include <string.h>

struct rattle_memory {
    bool is_there;
    void *at;
};

static char none[16];
static long requests, refused_request, living, wrong;

static struct rattle_memory answered(void *at) {
    struct rattle_memory memory = { at != NULL, at != NULL ? at : none };
    return memory;
}

static bool is_refused(void) { return ++requests == refused_request; }

struct rattle_memory rattle_alloc(size_t size, size_t alignment) {
    void *at = is_refused() ? NULL : malloc(size ? size : alignment);
    living += at != NULL;
    return answered(at);
}

struct rattle_memory rattle_realloc(void *old, size_t old_size, size_t size, size_t alignment) {
    (void)old_size;
    return answered(is_refused() ? NULL : realloc(old, size ? size : alignment));
}

void rattle_dealloc(void *old) {
    living--;
    free(old);
}

static void must(int line, bool holds) {
    if (holds) return;
    wrong++;
    printf("refused_memory.c:%d: WRONG, request %ld\n", line, refused_request);
}
#define MUST(what) must(__LINE__, what)

static uint8_t image[4096], other[4096];

/* Returns true if the segment is unchanged: `a` is still 5, and saving the segment still gives the image. */
static bool is_as_it_was(zx_segment *s) {
    zx_key a = zx_name("a");
    zx_value value = { 0, 0, 0 };
    uint64_t size = 0;
    return zx_size(s, &size) == ZX_DONE && size == 1024 && zx_get(s, &a, 0, &value) == ZX_DONE && value.number == 5 &&
           zx_save(s, other, sizeof other) == ZX_DONE && memcmp(image, other, 1024) == 0;
}

/* Returns true if the call is done; otherwise its code must be ZX_NO_MEMORY. */
static bool is_done(zx_code code) {
    MUST(code == ZX_DONE || code == ZX_NO_MEMORY);
    return code == ZX_DONE;
}

/* Makes one run, and refuses the request with the number `number`. Returns false if the run made fewer requests than
   that. */
static bool run(long number) {
    zx_segment s = ZX_CLOSED_HANDLE;
    zx_key a = zx_name("a");
    zx_value five = zx_i64(5), value = { 0, 0, 0 };
    zx_text texts[2] = { { (const uint8_t *)"one", 3 }, { (const uint8_t *)"two", 3 } };
    uint64_t handle = 0;
    uint32_t count = 0;
    requests = 0;
    refused_request = number;

    is_done(zx_create(&s, 1024));
    zx_close(&s);
    is_done(zx_check(image, 1024));
    if (is_done(zx_open(&s, image, 1024, 1024, ZX_WRITE))) {
        MUST(is_as_it_was(&s));
        if (!is_done(zx_relocate(&s, 2048))) MUST(is_as_it_was(&s));
        MUST(is_as_it_was(&s));
        if (!is_done(zx_grow(&s, 3072))) {
            MUST(is_as_it_was(&s));
        } else {
            long before = requests;
            zx_key l = zx_name("l"), t = zx_name("t");
            MUST(zx_get(&s, &a, 0, &value) == ZX_DONE && value.number == 5);
            MUST(zx_set(&s, &a, 0, &five) == ZX_DONE);
            MUST(zx_construct_strings(&s, &l, texts, 2, &handle) == ZX_DONE);
            MUST(zx_push_text(&s, &l, texts[0].at, 3) == ZX_DONE);
            MUST(zx_find_or_construct_string(&s, &t, texts[1].at, 3, &handle, &count) == ZX_DONE);
            MUST(zx_shrink(&s) == ZX_DONE);
            MUST(requests == before);
        }
    }
    zx_close(&s);
    MUST(living == 0);
    return requests >= number;
}

int main(void) {
    zx_segment s = ZX_CLOSED_HANDLE;
    zx_key a = zx_name("a");
    zx_value five = zx_i64(5);
    uint64_t handle = 0;
    long number = 1;
    MUST(zx_create(&s, 1024) == ZX_DONE && zx_construct(&s, &a, 1, &five, &handle) == ZX_DONE);
    MUST(zx_save(&s, image, sizeof image) == ZX_DONE);
    zx_close(&s);
    while (run(number)) number++;
    MUST(number > 4);
    printf("refused_memory.c: %ld refusals, %ld wrong\n", number - 1, wrong);
    return wrong != 0;
}
