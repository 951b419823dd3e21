/* changed FOLDER: a mapped file whose bytes another process changes as soon as its image was refused. It is linked with
   --wrap=zx_attach_explained, so that the change comes right after the check. */
#define _GNU_SOURCE
#include "zaluxhoni_files.h"

#include <fcntl.h>
#include <stdio.h>
#include <stdlib.h>
#include <string.h>
#include <unistd.h>

enum { SIZE = 1024 };

static int wrong, cases, file;
static uint8_t good[SIZE], later[SIZE];

static void is_number(int line, const char *what, uint64_t got, uint64_t wanted) {
    cases++;
    if (got == wanted) return;
    printf("changed.c:%d: WRONG %s: %llu, not %llu\n", line, what, (unsigned long long)got, (unsigned long long)wanted);
    wrong++;
}
#define IS(got, wanted) is_number(__LINE__, #got, (uint64_t)(got), (uint64_t)(wanted))

static void put(const uint8_t *image) {
    if (pwrite(file, image, SIZE, 0) != SIZE) exit(2);
}

zx_code __real_zx_attach_explained(zx_segment *segment, zx_memory *memory, uint64_t len, uint32_t mode,
                                   uint64_t *place);
zx_code __wrap_zx_attach_explained(zx_segment *segment, zx_memory *memory, uint64_t len, uint32_t mode,
                                   uint64_t *place);
zx_code __wrap_zx_attach_explained(zx_segment *segment, zx_memory *memory, uint64_t len, uint32_t mode,
                                   uint64_t *place) {
    zx_code code = __real_zx_attach_explained(segment, memory, len, mode, place);
    if (code != ZX_DONE) put(later);
    return code;
}

/* Opens a file with a wrong word. After the check another program puts the right bytes there. The opening still returns
   the code and the place that the check found, and opens no segment. */
static void is_refused(const char *path, uint32_t how, size_t at, uint64_t word, zx_code code, uint64_t place) {
    zx_file opened = ZX_CLOSED_FILE;
    uint64_t size = 7;
    uint8_t first[SIZE];
    memcpy(first, good, SIZE);
    memcpy(first + at, &word, sizeof word);
    put(first);
    IS(zx_file_open(&opened, path, how | ZX_MAPPED, 0), code);
    IS(opened.place, place);
    IS(zx_size(&opened.segment, &size), ZX_CLOSED);
    IS(size, 7);
    zx_file_discard(&opened);
}

int main(int count, char **words) {
    char path[420];
    zx_segment segment = ZX_CLOSED_HANDLE;
    zx_file opened = ZX_CLOSED_FILE;
    const uint32_t modes[] = { ZX_OPEN_ONLY, ZX_OPEN_READ_ONLY, ZX_OPEN_COPY_ON_WRITE };
    if (count != 2 || zx_create(&segment, SIZE) != ZX_DONE || zx_save(&segment, good, SIZE) != ZX_DONE) return 2;
    zx_close(&segment);
    snprintf(path, sizeof path, "%s/changed.seg", words[1]);
    file = open(path, O_RDWR | O_CREAT | O_TRUNC | O_CLOEXEC, 0600);
    if (file < 0) return 2;
    for (size_t i = 0; i < sizeof modes / sizeof *modes; i++) {
        /* a good image comes */
        memcpy(later, good, SIZE);
        is_refused(path, modes[i], 128, 16, ZX_BAD_TAG, 128);
        is_refused(path, modes[i], 88, 1, ZX_BAD_RESERVED, 88);
        is_refused(path, modes[i], 16, 2048, ZX_TRUNCATED, SIZE);
        IS(zx_file_open(&opened, path, modes[i] | ZX_MAPPED, 0), ZX_DONE);
        zx_file_discard(&opened);
        /* an image of another class comes */
        later[0] ^= 1;
        is_refused(path, modes[i], 24, 1, ZX_BAD_FREE_TREE, 24);
        is_refused(path, modes[i], 128, 16, ZX_BAD_TAG, 128);
    }
    unlink(path);
    printf("%d cases, %d wrong\n", cases, wrong);
    return wrong != 0;
}
