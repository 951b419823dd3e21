/* An inventory: articles as records, prices in a map, names as texts, suppliers as a group. Each run sells an apple. */
#include "zaluxhoni_files.h"

#include <inttypes.h>
#include <stdio.h>
#include <stdlib.h>

typedef struct {
    int32_t number, count;
    double weight;
} article;

static zx_file file;
static zx_segment *const shop = &file.segment;
static uint64_t handle, len, places;
static uint32_t found;
static bool is_new;

/* Ends the program if a call fails. */
static void must(zx_code code) {
    if (code != ZX_DONE) {
        zx_text words;
        zx_file_words(code, &words);
        fprintf(stderr, "inventory: %.*s\n", (int)words.len, (const char *)words.at);
        exit(1);
    }
}

static zx_key name_of(const char *group, int number) {
    static char name[32];
    snprintf(name, sizeof name, "%s%d", group, number);
    return zx_name(name);
}

static void add(article added, const char *name, int64_t price, const char *supplier) {
    zx_key articles = zx_name("articles"), prices = zx_name("prices"), seller = zx_name(supplier);
    zx_value number = zx_i32(added.number), cents = zx_i64(price);
    zx_values none = zx_i32s(&added.number, 0);
    for (size_t i = 0; i < sizeof added; i++) {
        zx_value byte = zx_u8(((const uint8_t *)&added)[i]);
        must(zx_push(shop, &articles, &byte));
    }
    must(zx_map_put(shop, &prices, &number, &cents, &is_new));
    zx_key its_name = name_of("names/", added.number);
    must(zx_construct_string(shop, &its_name, (const uint8_t *)name, strlen(name), &handle));
    must(zx_find_or_construct_vector(shop, &seller, &none, &handle, &found));
    must(zx_push(shop, &seller, &number));
}

static void fill(void) {
    zx_key articles = zx_name("articles"), prices = zx_name("prices"), earned = zx_name("earned");
    zx_values none = zx_u8s((const uint8_t *)"", 0);
    zx_value zero = zx_i64(0);
    must(zx_construct_vector(shop, &articles, &none, &handle));
    must(zx_construct_map(shop, &prices, ZX_I32, ZX_I64, &handle));
    must(zx_construct(shop, &earned, 1, &zero, &handle));
    add((article){ 1, 10, 0.25 }, "apples", 250, "suppliers/north");
    add((article){ 2, 4, 0.5 }, "pears", 320, "suppliers/south");
    add((article){ 3, 7, 0.125 }, "figs", 1999, "suppliers/north");
}

static article at(uint64_t index) {
    zx_key articles = zx_name("articles");
    article there;
    must(zx_read_u8s(shop, &articles, index * sizeof there, (uint8_t *)&there, sizeof there));
    return there;
}

static int64_t price_of(int32_t number) {
    zx_key prices = zx_name("prices");
    zx_value wanted = zx_i32(number), price;
    must(zx_map_get(shop, &prices, &wanted, &price));
    return price.number;
}

static void sell(void) {
    zx_key articles = zx_name("articles"), earned = zx_name("earned");
    article sold = at(0);
    zx_value sum;
    if (sold.count-- == 0) return;
    zx_values bytes = zx_u8s((const uint8_t *)&sold, sizeof sold);
    must(zx_write_elements(shop, &articles, 0, &bytes));
    must(zx_get(shop, &earned, 0, &sum));
    sum.number += price_of(sold.number);
    must(zx_set(shop, &earned, 0, &sum));
}

static void report(void) {
    zx_key articles = zx_name("articles"), earned = zx_name("earned");
    uint8_t text[256];
    zx_info told;
    zx_value value;
    must(zx_measure(shop, &articles, &len, &places));
    for (uint64_t i = 0, count = len / sizeof(article); i < count; i++) {
        article each = at(i);
        zx_key name = name_of("names/", each.number);
        must(zx_read_string(shop, &name, text, sizeof text, &len));
        printf("%d %.*s: %d of %g kg at %" PRId64 "\n", (int)each.number, (int)len, (const char *)text, (int)each.count,
               each.weight, price_of(each.number));
    }
    uint64_t first;
    must(zx_named_from(shop, (const uint8_t *)"suppliers/", 10, &first));
    for (uint64_t i = first; zx_named_at(shop, i, &told, text, sizeof text) == ZX_DONE; i++) {
        if (told.name_len < 10 || memcmp(text, "suppliers/", 10) != 0) break;
        zx_key supplier = zx_handle(told.handle);
        printf("%.*s sells", (int)told.name_len - 10, (const char *)text + 10);
        must(zx_measure(shop, &supplier, &len, &places));
        for (uint64_t place = 0; place < len; place++) {
            must(zx_get(shop, &supplier, place, &value));
            printf(" %" PRId64, value.number);
        }
        putchar('\n');
    }
    must(zx_get(shop, &earned, 0, &value));
    printf("earned %" PRId64 "\n", value.number);
}

int main(int words, char **word) {
    zx_key articles = zx_name("articles");
    must(zx_file_open(&file, words > 1 ? word[1] : "inventory.seg", ZX_OPEN_OR_CREATE, 65536));
    zx_code code = zx_find(shop, &articles, ZX_VECTOR(ZX_U8), &handle, &found);
    if (code == ZX_ABSENT) fill();
    else must(code);
    sell();
    must(zx_file_save(&file));
    report();
    zx_file_discard(&file);
    return 0;
}
