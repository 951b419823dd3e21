/* commit FOLDER COUNT [ROW..]: the times of bench/commit.sh, of all rows or of those that are named. */
#include "zaluxhoni_files.h"

#include <fcntl.h>
#include <stdio.h>
#include <stdlib.h>
#include <string.h>
#include <time.h>
#include <unistd.h>
#ifdef HAS_LMDB
#include <lmdb.h>
#endif
#ifdef HAS_SQLITE
#include <sqlite3.h>
#endif

enum { MOST = 10000, CONTENDERS = 4 };

static char folder[300], **rows_wanted;
static double times[CONTENDERS][MOST], worked[CONTENDERS][MOST];

static bool is_wanted(const char *row) {
    for (char **word = rows_wanted; *word; word++)
        if (strcmp(*word, row) == 0) return true;
    return !*rows_wanted;
}

static double read_clock(clockid_t clock) {
    struct timespec at;
    clock_gettime(clock, &at);
    return (double)at.tv_sec * 1e3 + (double)at.tv_nsec / 1e6;
}

static double now(void) { return read_clock(CLOCK_MONOTONIC); }

/* How long the processor worked for this process, in the system too. */
static double work(void) { return read_clock(CLOCK_PROCESS_CPUTIME_ID); }

static int compared(const void *a, const void *b) {
    double one = *(const double *)a, other = *(const double *)b;
    return one < other ? -1 : one > other;
}

static double median(double *all, int count) {
    qsort(all, (size_t)count, sizeof *all, compared);
    return all[count / 2];
}

static void print(const char *what, double *all, int count) {
    double middle = median(all, count);
    printf("%-56s %9.3f ms  least %9.3f\n", what, middle, all[0]);
    fflush(stdout);
}

/* Prints what a contender took, and how long the processor worked for that. */
static void print_both(const char *what, int k, int count) {
    double middle = median(times[k], count), of_work = median(worked[k], count), mean = 0, mean_of_work = 0;
    for (int i = 0; i < count; i++) mean += times[k][i] / count, mean_of_work += worked[k][i] / count;
    printf("%-40s %9.3f ms  least %9.3f  mean %9.3f  processor %9.3f  mean %9.3f\n", what, middle, times[k][0], mean,
           of_work, mean_of_work);
    fflush(stdout);
}

static void done(int code, const char *what) {
    if (code == 0) return;
    fprintf(stderr, "commit: %s: %d\n", what, code);
    exit(1);
}

static char *in_folder(const char *name) {
    static char path[400];
    snprintf(path, sizeof path, "%s/%s", folder, name);
    return path;
}

static uint64_t some(void) {
    static uint64_t seed = 88172645463325252u;
    seed ^= seed << 13, seed ^= seed >> 7, seed ^= seed << 17;
    return seed;
}

/* A segment of a size, full of numbers. */
static uint64_t fill(zx_file *file, uint64_t size) {
    zx_key key = zx_name("numbers");
    uint64_t count = size / 8 - 200, handle;
    uint64_t *numbers = malloc(count * 8);
    if (!numbers) exit(1);
    for (uint64_t i = 0; i < count; i++) numbers[i] = some();
    zx_values none = zx_u64s(numbers, 0), all = zx_u64s(numbers, count);
    done((int)zx_construct_vector(&file->segment, &key, &none, &handle), "construct");
    done((int)zx_reserve(&file->segment, &key, count), "reserve");
    done((int)zx_extend(&file->segment, &key, &all), "extend");
    free(numbers);
    return count;
}

/* How much of a row is changed: a number, or 3,000 bytes. */
enum change { ONE_NUMBER, ALL_OF_IT };

static void set_some(zx_file *file, uint64_t count, int rows, enum change change) {
    static uint64_t row[375];
    zx_key key = zx_name("numbers");
    for (int i = 0; i < rows; i++) {
        zx_value value = zx_u64(some());
        uint64_t at = some() % (count / 512) * 512;
        for (int k = 0; change == ALL_OF_IT && k < 375; k++) row[k] = value.natural + (uint64_t)k * at;
        zx_values values = zx_u64s(row, 375);
        done(change == ONE_NUMBER ? (int)zx_set(&file->segment, &key, at, &value)
                                  : (int)zx_write_elements(&file->segment, &key, at, &values), "set");
    }
}

/* ---- the contenders: each changes rows, one a page, and commits them */

static zx_file durable = ZX_CLOSED_FILE;
static uint64_t durable_count;

static void begin_durable(uint64_t size) {
    char *path = in_folder("durable.seg");
    unlink(path);
    done((int)zx_file_open(&durable, path, ZX_CREATE_ONLY | ZX_DURABLE, size), "open");
    durable_count = fill(&durable, size);
    done((int)zx_file_save(&durable), "save");
}

static void commit_durable(int rows, enum change change) {
    set_some(&durable, durable_count, rows, change);
    done((int)zx_file_commit(&durable), "commit");
}

static void end_durable(void) {
    zx_file_discard(&durable);
    unlink(in_folder("durable.seg"));
    unlink(in_folder("durable.seg-log"));
}

#ifdef HAS_LMDB
static MDB_env *env;
static MDB_dbi dbi;
static uint64_t lmdb_count;

static void begin_lmdb(uint64_t size) {
    MDB_txn *txn;
    char page[3000] = { 0 }, *path = in_folder("lmdb");
    unlink(path);
    lmdb_count = size / 4096;
    done(mdb_env_create(&env), "lmdb");
    done(mdb_env_set_mapsize(env, size * 4), "lmdb");
    done(mdb_env_open(env, path, MDB_NOSUBDIR, 0600), "lmdb");
    done(mdb_txn_begin(env, 0, 0, &txn), "lmdb");
    done(mdb_dbi_open(txn, 0, MDB_INTEGERKEY, &dbi), "lmdb");
    for (uint64_t i = 0; i < lmdb_count; i++) {
        MDB_val key = { 8, &i }, value = { sizeof page, page };
        done(mdb_put(txn, dbi, &key, &value, MDB_APPEND), "lmdb");
    }
    done(mdb_txn_commit(txn), "lmdb");
}

static void commit_lmdb(int rows, enum change change) {
    static char page[3000];
    MDB_txn *txn;
    (void)change;
    done(mdb_txn_begin(env, 0, 0, &txn), "lmdb");
    for (int i = 0; i < rows; i++) {
        uint64_t row = some() % lmdb_count;
        MDB_val key = { 8, &row }, value = { sizeof page, page };
        page[0]++;
        done(mdb_put(txn, dbi, &key, &value, 0), "lmdb");
    }
    done(mdb_txn_commit(txn), "lmdb");
}

static void end_lmdb(void) {
    mdb_env_close(env);
    unlink(in_folder("lmdb"));
    unlink(in_folder("lmdb-lock"));
}
#endif

#ifdef HAS_SQLITE
static sqlite3 *base;
static sqlite3_stmt *set;
static uint64_t sqlite_count;

static void sql(const char *text) { done(sqlite3_exec(base, text, 0, 0, 0), text); }

static void begin_sqlite(uint64_t size) {
    char text[200], *path = in_folder("sqlite");
    unlink(path);
    sqlite_count = size / 4096;
    done(sqlite3_open(path, &base), "sqlite");
    sql("pragma journal_mode=wal; pragma synchronous=full; create table t(k integer primary key, v blob); begin");
    snprintf(text, sizeof text,
             "with recursive c(x) as (select 1 union all select x+1 from c where x < %llu) insert into t select x, zeroblob(3000) from c",
             (unsigned long long)sqlite_count);
    sql(text);
    sql("commit");
    done(sqlite3_prepare_v2(base, "update t set v=randomblob(3000) where k=?", -1, &set, 0), "sqlite");
}

static void commit_sqlite(int rows, enum change change) {
    (void)change;
    sql("begin");
    for (int i = 0; i < rows; i++) {
        sqlite3_bind_int64(set, 1, (sqlite3_int64)(some() % sqlite_count + 1));
        if (sqlite3_step(set) != SQLITE_DONE) exit(1);
        sqlite3_reset(set);
    }
    sql("commit");
}

static void end_sqlite(void) {
    sqlite3_finalize(set);
    sqlite3_close(base);
    unlink(in_folder("sqlite"));
    unlink(in_folder("sqlite-wal"));
    unlink(in_folder("sqlite-shm"));
}
#endif

static const struct contender {
    const char *name;
    void (*begin)(uint64_t size);
    void (*commit)(int rows, enum change change);
    void (*end)(void);
} contenders[] = {
    { "durable", begin_durable, commit_durable, end_durable },
#ifdef HAS_LMDB
    { "LMDB", begin_lmdb, commit_lmdb, end_lmdb },
#endif
#ifdef HAS_SQLITE
    { "SQLite, write-ahead log", begin_sqlite, commit_sqlite, end_sqlite },
#endif
};

enum { MANY = sizeof contenders / sizeof contenders[0] };

static void time_commits(uint64_t mib, int rows, enum change change, int count) {
    char what[100];
    for (int k = 0; k < MANY; k++) contenders[k].begin(mib << 20);
    for (int i = 0; i < count; i++) {
        for (int k = 0; k < MANY; k++) {
            double from = now(), before = work();
            contenders[k].commit(rows, change);
            worked[k][i] = work() - before;
            times[k][i] = now() - from;
        }
    }
    for (int k = 0; k < MANY; k++) {
        snprintf(what, sizeof what, "%s, %d %s in %d MiB", contenders[k].name, rows,
                 change == ONE_NUMBER ? "changes" : "rows", (int)mib);
        print_both(what, k, count);
        contenders[k].end();
    }
}

static void time_whole(uint64_t mib, int count) {
    zx_file file = ZX_CLOSED_FILE;
    char what[100], *path = in_folder("whole.seg");
    unlink(path);
    done((int)zx_file_open(&file, path, ZX_CREATE_ONLY, mib << 20), "open");
    uint64_t numbers = fill(&file, mib << 20);
    for (int i = 0; i < count; i++) {
        set_some(&file, numbers, 1, ONE_NUMBER);
        double from = now();
        done((int)zx_file_save(&file), "save");
        times[0][i] = now() - from;
    }
    snprintf(what, sizeof what, "a whole save of %d MiB", (int)mib);
    print(what, times[0], count);
    zx_file_discard(&file);
    unlink(path);
}

/* Times what a durable commit has at least: a page written and synced, twice. */
static void time_syncs(int count) {
    static const char page[4096];
    char *path = in_folder("synced");
    int file = open(path, O_RDWR | O_CREAT | O_TRUNC | O_CLOEXEC, 0600);
    done(file < 0, "open");
    for (int i = -1; i < count; i++) {
        double from = now();
        for (int turn = 1; turn <= 2; turn++) {
            done(pwrite(file, page, sizeof page, (off_t)sizeof page * turn) != sizeof page, "write");
            done(fdatasync(file), "sync");
        }
        times[0][i < 0 ? 0 : i] = now() - from;
    }
    print("a page written and synced, twice", times[0], count);
    close(file);
    unlink(path);
}

/* Times the check of a file's image, which is what an undo costs at most. */
static void time_check(zx_file *file) {
    uint64_t size = 0;
    done((int)zx_size(&file->segment, &size), "size");
    uint8_t *image = malloc(size);
    if (!image) exit(1);
    done((int)zx_save(&file->segment, image, size), "save");
    for (int i = 0; i < 5; i++) {
        double from = now();
        done((int)zx_check(image, size), "check");
        times[0][i] = now() - from;
    }
    print("the check of it", times[0], 5);
    free(image);
}

static void time_transactions(uint32_t how, const char *name, uint64_t size, int count) {
    zx_file file = ZX_CLOSED_FILE;
    zx_step before = ZX_NO_STEP;
    char what[100], *path = in_folder("steps.seg");
    unlink(path);
    done((int)zx_file_open(&file, path, ZX_CREATE_ONLY | how, size), "open");
    uint64_t numbers = fill(&file, size);
    double first = now();
    done((int)zx_file_begin(&file, &before), "begin");
    done((int)zx_file_keep(&file, &before), "keep");
    times[0][0] = now() - first;
    snprintf(what, sizeof what, "the first transaction, %s, %llu MB", name, (unsigned long long)size / 1000000);
    print(what, times[0], 1);
    for (int i = 0; i < count; i++) {
        double from = now();
        done((int)zx_file_begin(&file, &before), "begin");
        set_some(&file, numbers, 1, ONE_NUMBER);
        done((int)zx_file_keep(&file, &before), "keep");
        times[0][i] = now() - from;
    }
    snprintf(what, sizeof what, "a transaction of one change, %s, %llu MB", name, (unsigned long long)size / 1000000);
    print(what, times[0], count);
    for (int i = 0; i < 5; i++) {
        done((int)zx_file_begin(&file, &before), "begin");
        set_some(&file, numbers, 1, ONE_NUMBER);
        double from = now();
        done((int)zx_file_undo(&file, &before), "undo");
        times[0][i] = now() - from;
    }
    snprintf(what, sizeof what, "one that is undone, %s, %llu MB", name, (unsigned long long)size / 1000000);
    print(what, times[0], 5);
    if (how & ZX_DURABLE) time_check(&file);
    zx_file_discard(&file);
    unlink(path);
    unlink(in_folder("steps.seg-log"));
}

/* Fills a segment with texts. Makes commits until its log has 95 % of the length at which a checkpoint empties it. */
static void make_log(zx_file *file, uint64_t size) {
    static const uint8_t text[40] = "a text that has a block of its own ....";
    zx_key key = zx_name("texts"), numbers = zx_name("numbers");
    zx_text one = { text, sizeof text };
    uint64_t handle, quarter = size / 32;
    uint64_t *all = calloc(quarter, 8);
    if (!all) exit(1);
    zx_values values = zx_u64s(all, quarter);
    done((int)zx_construct_vector(&file->segment, &numbers, &values, &handle), "construct");
    done((int)zx_construct_strings(&file->segment, &key, &one, 1, &handle), "construct");
    while (zx_push_text(&file->segment, &key, text, sizeof text) == ZX_DONE) {}
    done((int)zx_file_save(file), "save");
    uint64_t len = quarter / 20;
    for (uint64_t at = 0; at < 19 * len; at += len) {
        for (uint64_t i = 0; i < len; i++) all[i] = some();
        zx_values row = zx_u64s(all, len);
        done((int)zx_write_elements(&file->segment, &numbers, at, &row), "write");
        done((int)zx_file_commit(file), "commit");
    }
    free(all);
}

/* Times an opening with a log of a quarter of the image, an opening after a save, and the check of the image. */
static void time_opening(uint64_t mib, int count) {
    zx_file file = ZX_CLOSED_FILE;
    char what[100], path[400];
    snprintf(path, sizeof path, "%s", in_folder("opened.seg"));
    unlink(path);
    done((int)zx_file_open(&file, path, ZX_CREATE_ONLY | ZX_DURABLE, mib << 20), "open");
    make_log(&file, mib << 20);
    uint64_t size = mib << 20;
    uint8_t *image = malloc(size);
    if (!image) exit(1);
    done((int)zx_save(&file.segment, image, size), "save");
    zx_file_discard(&file);
    for (int i = 0; i < 2 * count; i++) {
        double from = now(), before = work();
        if (i % 2) done((int)zx_file_open(&file, path, ZX_OPEN_ONLY | ZX_DURABLE, 0), "open");
        else done((int)zx_check(image, size), "check");
        worked[i % 2][i / 2] = work() - before;
        times[i % 2][i / 2] = now() - from;
        if (i % 2) zx_file_discard(&file);
    }
    snprintf(what, sizeof what, "the check of %d MiB", (int)mib);
    print_both(what, 0, count);
    snprintf(what, sizeof what, "an opening with a log of %.1f MiB", (double)mib * 19 / 80);
    print_both(what, 1, count);
    done((int)zx_file_open(&file, path, ZX_OPEN_ONLY | ZX_DURABLE, 0), "open");
    done((int)zx_file_close(&file), "close");
    for (int i = 0; i < count; i++) {
        double from = now(), before = work();
        done((int)zx_file_open(&file, path, ZX_OPEN_ONLY | ZX_DURABLE, 0), "open");
        worked[0][i] = work() - before;
        times[0][i] = now() - from;
        zx_file_discard(&file);
    }
    print_both("an opening without a log", 0, count);
    free(image);
    unlink(path);
}

/* Times commits in an image of a size, by the rows one, numbers, rows and whole with the size behind them. */
static void time_size(uint64_t mib, int count) {
    const struct {
        const char *name;
        int rows, count;
        enum change change;
    } all[] = { { "one", 1, count, ONE_NUMBER },
                { "numbers", 1000, count / 4 + 1, ONE_NUMBER },
                { "rows", 1000, count / 4 + 1, ALL_OF_IT } };
    char row[40];
    for (int i = 0; i < 3; i++) {
        snprintf(row, sizeof row, "%s%d", all[i].name, (int)mib);
        if (is_wanted(row)) time_commits(mib, all[i].rows, all[i].change, all[i].count);
    }
    snprintf(row, sizeof row, "whole%d", (int)mib);
    if (is_wanted(row)) time_whole(mib, 5);
}

int main(int words, char **word) {
    if (words < 3) return 2;
    int count = atoi(word[2]);
    if (count < 1 || count > MOST) return 2;
    rows_wanted = word + 3;
    snprintf(folder, sizeof folder, "%s", word[1]);
    double load = 0;
    (void)getloadavg(&load, 1);
    printf("medians of %d or %d, in turns; load %.1f\n", count, count / 4 + 1, load);
    time_size(32, count);
    time_size(256, count);
    if (is_wanted("opening")) time_opening(32, 9);
    const uint64_t sizes[] = { 1000000, 64000000, 200000000 };
    for (int i = 0; i < 3; i++) {
        char row[40];
        snprintf(row, sizeof row, "steps%d", (int)(sizes[i] / 1000000));
        if (!is_wanted(row)) continue;
        time_transactions(0, "by copy", sizes[i], count);
        time_transactions(ZX_MAPPED, "mapped", sizes[i], count);
        time_transactions(ZX_DURABLE, "durable", sizes[i], count);
        time_syncs(count);
    }
    return 0;
}
