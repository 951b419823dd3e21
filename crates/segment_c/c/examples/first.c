/* A segment that is made, filled, saved and opened again. */
#include "zaluxhoni.h"

#include <inttypes.h>
#include <stdio.h>
#include <stdlib.h>

/* Ends the program where a call is not done. */
static void must(zx_code code) {
    if (code != ZX_DONE) {
        zx_text words;
        zx_words(code, &words);
        fprintf(stderr, "%.*s\n", (int)words.len, (const char *)words.at);
        exit(1);
    }
}

int main(void) {
    zx_segment segment = ZX_CLOSED_HANDLE;
    must(zx_create(&segment, 4096));

    /* a counter, and prices by article */
    uint64_t handle;
    zx_key counter = zx_name("counter"), prices = zx_name("prices");
    zx_value zero = zx_i64(0);
    must(zx_construct(&segment, &counter, 1, &zero, &handle));
    must(zx_construct_map(&segment, &prices, ZX_U64, ZX_I64, &handle));
    for (uint64_t article = 1; article <= 3; article++) {
        bool is_new;
        zx_value at = zx_u64(article), price = zx_i64((int64_t)article * 250);
        must(zx_map_put(&segment, &prices, &at, &price, &is_new));
    }

    /* its image, which could go into a file */
    uint64_t size;
    must(zx_size(&segment, &size));
    uint8_t *image = malloc(size);
    if (image == NULL) return 1;
    must(zx_save(&segment, image, size));
    zx_close(&segment);

    /* the same segment, opened for reading */
    must(zx_open(&segment, image, size, size, ZX_READ));
    zx_value article = zx_u64(2), price;
    must(zx_map_get(&segment, &prices, &article, &price));
    printf("article 2: %" PRId64 "\n", price.number);
    zx_close(&segment);
    free(image);
    return 0;
}
