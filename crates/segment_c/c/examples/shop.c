#include "zaluxhoni_files.h"

#include <stdio.h>
#include <stdlib.h>

/* Ends the program if a call fails. */
static void must(zx_code code) {
    if (code != ZX_DONE) {
        zx_text words;
        zx_file_words(code, &words);
        fprintf(stderr, "shop: %.*s\n", (int)words.len, (const char *)words.at);
        exit(1);
    }
}

int main(void) {
    zx_file shop = ZX_CLOSED_FILE;
    zx_key prices = zx_name("prices"), basket = zx_name("basket");
    zx_text none = { (const uint8_t *)"", 0 };
    uint64_t handle, len, places;
    uint32_t count;
    bool is_new;

    /* opens the file, or creates it; until it is closed nobody else writes it */
    must(zx_file_open(&shop, "shop.seg", ZX_OPEN_OR_CREATE, 4096));
    must(zx_find_or_construct_map(&shop.segment, &prices, ZX_I32, ZX_I64, &handle, &count));
    for (int32_t i = 1; i <= 3; i++) {
        zx_value article = zx_i32(i), price = zx_i64(i * 250);
        must(zx_map_put(&shop.segment, &prices, &article, &price, &is_new));
    }
    must(zx_find_or_construct_strings(&shop.segment, &basket, &none, 0, &handle, &count));
    must(zx_push_text(&shop.segment, &basket, (const uint8_t *)"apples", 6));
    must(zx_file_close(&shop)); /* saves */

    must(zx_file_open(&shop, "shop.seg", ZX_OPEN_READ_ONLY, 0));
    must(zx_measure(&shop.segment, &basket, &len, &places));
    printf("the basket has %d\n", (int)len);
    zx_value article, price;
    zx_code code = zx_map_first(&shop.segment, &prices, &article, &price);
    while (code == ZX_DONE) {
        printf("article %d costs %d\n", (int)article.number, (int)price.number);
        zx_value after = article;
        code = zx_map_next(&shop.segment, &prices, &after, &article, &price);
    }
    zx_file_discard(&shop);
    return 0;
}
