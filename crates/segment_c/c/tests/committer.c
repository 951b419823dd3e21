/* committer FILE: adds 1 to two numbers of a durable file in a transaction, again and again, until it is killed, and prints
   each number that is committed. At times it closes the file and opens it again. killed_committers.py starts it. */
#include "zaluxhoni_files.h"

#include <stdio.h>
#include <stdlib.h>

static zx_file file;

static void done(zx_code code) {
    if (code == ZX_DONE) return;
    printf("WRONG %s\n", zx_message(code));
    fflush(stdout);
    exit(1);
}

static int64_t add_one(const char *name) {
    zx_key key = zx_name(name);
    zx_value value;
    done(zx_get(&file.segment, &key, 0, &value));
    value.number++;
    done(zx_set(&file.segment, &key, 0, &value));
    return value.number;
}

int main(int count, char **words) {
    if (count < 2) return 2;
    for (;;) {
        done(zx_file_open(&file, words[1], ZX_OPEN_ONLY | ZX_DURABLE, 0));
        for (int i = 0; i < 50; i++) {
            zx_step before = ZX_NO_STEP;
            done(zx_file_begin(&file, &before));
            int64_t number = add_one("n");
            if (add_one("m") != number) done(ZX_BAD_VALUE);
            done(zx_file_keep(&file, &before));
            printf("%lld\n", (long long)number);
            fflush(stdout);
        }
        if (rand() % 2) done(zx_file_close(&file));
        else zx_file_discard(&file);
    }
}
