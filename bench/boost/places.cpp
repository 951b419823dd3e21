// Elements where they stand, rows, and files that are mapped: on this library (compiled with OURS, over
// zaluxhoni_files.h, and over zaluxhoni.hpp for loops of C++) and on Boost.Interprocess's managed_mapped_file (compiled
// without). `places FILE [CHECKER]` prints a line for each: whose side, what, how many steps, and processor
// nanoseconds a step, the least of seven rounds. FILE is made and removed. CHECKER is the program `segment`, whose check
// of the same file is timed beside the opening.
#ifdef OURS
#include "zaluxhoni.hpp"
#include "zaluxhoni_files.h"
#include <sys/resource.h>
#include <sys/wait.h>
#else
#include <boost/interprocess/allocators/allocator.hpp>
#include <boost/interprocess/containers/vector.hpp>
#include <boost/interprocess/managed_mapped_file.hpp>
#endif

#include <algorithm>
#include <cstdint>
#include <cstdio>
#include <cstdlib>
#include <cstring>
#include <ctime>
#include <string>
#include <unistd.h>
#include <vector>

namespace {

constexpr int ROUNDS = 7, ELEMENTS = 1000000, OBJECTS = 200000;
constexpr std::uint64_t MIB = 1u << 20, EMPTY_SIZES[] = {1 * MIB, 16 * MIB, 256 * MIB}, FULL_SIZE = 32 * MIB;

double now() {
    timespec time{};
    clock_gettime(CLOCK_PROCESS_CPUTIME_ID, &time);
    return static_cast<double>(time.tv_sec) * 1e9 + static_cast<double>(time.tv_nsec);
}

[[noreturn]] void stop(const std::string &what) {
    std::fprintf(stderr, "places: %s failed\n", what.c_str());
    std::exit(1);
}

void print(const char *side, const std::string &what, int steps, double took) {
    std::printf("%s|%s|%d|%.2f\n", side, what.c_str(), steps, took / steps);
}

/// Prints the least time of a call, which must hold.
template <class Call> void times(const char *side, const std::string &what, int steps, Call call) {
    double least = 1e18;
    for (int i = 0; i < ROUNDS; i++) {
        const double before = now();
        const bool holds = call();
        least = std::min(least, now() - before);
        if (!holds) stop(what);
    }
    print(side, what, steps, least);
}

/// Lets the clock go on by which the system dates files, which stands still for some milliseconds: a file that was made
/// in this very moment is looked at twice.
void let_stand() { usleep(30000); }

std::string empty_file(std::uint64_t size) {
    return "an empty mapped file of " + std::to_string(size / MIB) + " MiB opened, set, closed";
}

/// A type of a program's own.
struct point {
    std::int64_t x, y, z;
};

const char *const PUSHES = "pushes into a vector, by handle";
const char *const OWN_PUSHES = "the same of values of 24 bytes";
const char *const FULL_FILE = "a mapped file of 32 MiB with 200,000 objects opened, set, closed";

#ifdef OURS
void done(zx_code code, const char *what) {
    if (code != ZX_DONE) stop(std::string(what) + ": " + zx_message(code));
}

/// One file, changed and closed, and opened by each round.
bool open_set_close(const char *path) {
    zx_file file = ZX_CLOSED_FILE;
    const zx_key key = zx_name("n");
    const zx_value seven = zx_i64(7);
    bool holds = zx_file_open(&file, path, ZX_OPEN_ONLY | ZX_MAPPED, 0) == ZX_DONE;
    holds = holds && zx_set(&file.segment, &key, 0, &seven) == ZX_DONE;
    return holds && zx_file_close(&file) == ZX_DONE;
}

void make_file(const char *path, std::uint64_t size, int objects) {
    zx_file file = ZX_CLOSED_FILE;
    std::uint64_t handle;
    const zx_key key = zx_name("n");
    const zx_value five = zx_i64(5);
    std::remove(path);
    done(zx_file_open(&file, path, ZX_CREATE_ONLY | ZX_MAPPED, size), "a new file");
    for (int i = 0; i < objects; i++) {
        char name[16];
        std::snprintf(name, sizeof name, "name%07d", i);
        const zx_key each = zx_name(name);
        done(zx_construct(&file.segment, &each, 1, &five, &handle), "an object");
    }
    done(zx_construct(&file.segment, &key, 1, &five, &handle), "an object");
    done(zx_file_close(&file), "a close");
}

/// Processor nanoseconds of the program's check, in a process of its own.
void check_beside(const char *checker, const char *path, const std::string &what) {
    double least = 1e18;
    for (int i = 0; i < ROUNDS; i++) {
        const pid_t child = fork();
        if (child == 0) {
            execl(checker, checker, "check", "--quiet", path, static_cast<char *>(nullptr));
            _exit(127);
        }
        int status = -1;
        rusage used{};
        if (wait4(child, &status, 0, &used) != child || status != 0) stop("the check");
        const double took = 1e9 * static_cast<double>(used.ru_utime.tv_sec + used.ru_stime.tv_sec) +
                            1e3 * static_cast<double>(used.ru_utime.tv_usec + used.ru_stime.tv_usec);
        least = std::min(least, took);
    }
    print("check", what, 1, least);
}

/// Rows of one type: read, and written, beside memcpy.
template <class T, class Values, class Read> void rows(const char *type, Values of, Read read) {
    zx_segment s = ZX_CLOSED_HANDLE;
    std::uint64_t handle;
    const zx_key key = zx_name("v");
    T *const from = new T[ELEMENTS], *const to = new T[ELEMENTS];
    for (int i = 0; i < ELEMENTS; i++) from[i] = static_cast<T>(i % 2), to[i] = static_cast<T>(0);
    const zx_values all = of(from, ELEMENTS);
    done(zx_create(&s, 32 * MIB), "a segment");
    done(zx_construct_vector(&s, &key, &all, &handle), "a vector");
    const std::string name = std::string("elements of ") + type;
    times("ours", name + " read as a row", ELEMENTS, [&] {
        return read(&s, &key, 0, to, ELEMENTS) == ZX_DONE && to[1] == from[1];
    });
    times("plain", name + " read as a row", ELEMENTS, [&] {
        std::memcpy(to, from, sizeof(T) * ELEMENTS);
        asm volatile("" : : "r"(to) : "memory");
        return true;
    });
    times("ours", name + " written as a row", ELEMENTS,
          [&] { return zx_write_elements(&s, &key, 0, &all) == ZX_DONE; });
    times("plain", name + " written as a row", ELEMENTS, [&] {
        std::memcpy(to, from, sizeof(T) * ELEMENTS);
        asm volatile("" : : "r"(to) : "memory");
        return true;
    });
    zx_close(&s);
    delete[] from;
    delete[] to;
}

// One body for a view and a plain array: of two inlined copies one may have a jump across a boundary of 32 bytes, which
// takes this processor half as long again.
[[gnu::noinline]] std::int64_t sum_of(const std::int64_t *at, std::uint64_t count) {
    std::int64_t sum = 0;
    for (std::uint64_t i = 0; i < count; i++) sum += at[i];
    return sum;
}
[[gnu::noinline]] void add_to(std::int64_t *at, std::uint64_t count) {
    for (std::uint64_t i = 0; i < count; i++) at[i] += 1;
}
[[gnu::noinline]] std::int64_t sum_by_for(const zaluxhoni::vector<std::int64_t> &of) {
    std::int64_t sum = 0;
    for (const std::int64_t each : of) sum += each;
    return sum;
}
[[gnu::noinline]] void add_by_for(const zaluxhoni::vector<std::int64_t> &of) {
    for (auto each : of) each = each + 1;
}

void views() {
    std::vector<std::int64_t> plain(ELEMENTS, 1);
    zaluxhoni::segment segment = zaluxhoni::segment::create(32 * MIB);
    zaluxhoni::vector<std::int64_t> vector = segment.vector<std::int64_t>("v");
    vector.append_range(plain);
    const zx_key key = zx_name("v");
    for (const char *const way : {"a view", "`for` over a vector"}) {
        const bool is_view = way[0] == 'a';
        const std::string read = std::string("elements read by ") + way;
        const std::string written = std::string("elements written by ") + way;
        times("ours", read, ELEMENTS, [&] {
            zx_elements found;
            if (!is_view) return sum_by_for(vector) > 0;
            if (zx_view(segment.raw(), &key, &found) != ZX_DONE) return false;
            return sum_of(static_cast<const std::int64_t *>(found.at), found.count) > 0;
        });
        times("plain", read, ELEMENTS, [&] { return sum_of(plain.data(), plain.size()) > 0; });
        times("ours", written, ELEMENTS, [&] {
            zx_elements found;
            if (!is_view) return add_by_for(vector), true;
            if (zx_view_mut(segment.raw(), &key, &found) != ZX_DONE) return false;
            return add_to(static_cast<std::int64_t *>(zx_elements_mut(segment.raw(), &found)), found.count), true;
        });
        times("plain", written, ELEMENTS, [&] { return add_to(plain.data(), plain.size()), true; });
    }
}

/// ELEMENTS calls that put something behind the last element of a vector.
template <class Push> void pushes(const char *what, const zx_values &none, Push push) {
    double least = 1e18;
    for (int round = 0; round < ROUNDS; round++) {
        zx_segment s = ZX_CLOSED_HANDLE;
        std::uint64_t handle;
        const zx_key key = zx_name("v");
        done(zx_create(&s, 128 * MIB), "a segment");
        done(zx_construct_vector(&s, &key, &none, &handle), "a vector");
        const zx_key by_handle = zx_handle(handle);
        const double before = now();
        for (int i = 0; i < ELEMENTS; i++)
            if (push(&s, &by_handle, i) != ZX_DONE) stop(what);
        least = std::min(least, now() - before);
        zx_close(&s);
    }
    print("ours", what, ELEMENTS, least);
}

void run(const char *path, const char *checker) {
    views();
    rows<std::uint8_t>("u8", zx_u8s, zx_read_u8s);
    rows<std::int32_t>("i32", zx_i32s, zx_read_i32s);
    rows<std::int64_t>("i64", zx_i64s, zx_read_i64s);
    const std::int64_t zero = 0;
    pushes(PUSHES, zx_i64s(&zero, 0), [](zx_segment *s, const zx_key *key, int i) {
        const zx_value value = zx_i64(i);
        return zx_push(s, key, &value);
    });
    pushes(OWN_PUSHES, zx_u8s(zx_no_bytes(), 0), [](zx_segment *s, const zx_key *key, int i) {
        const point value = {i, 0, 0};
        const zx_values bytes = zx_u8s(reinterpret_cast<const std::uint8_t *>(&value), sizeof value);
        return zx_extend(s, key, &bytes);
    });
    for (const std::uint64_t size : EMPTY_SIZES) {
        make_file(path, size, 0);
        let_stand();
        times("ours", empty_file(size), 1, [&] { return open_set_close(path); });
    }
    make_file(path, FULL_SIZE, OBJECTS);
    let_stand();
    times("ours", FULL_FILE, 1, [&] { return open_set_close(path); });
    if (checker) check_beside(checker, path, FULL_FILE);
    std::remove(path);
}
#else
namespace ipc = boost::interprocess;
using File = ipc::managed_mapped_file;

/// ELEMENTS pushes into a vector of a type.
template <class T> void pushes(const char *path, const char *what) {
    using Vector = ipc::vector<T, ipc::allocator<T, File::segment_manager>>;
    double least = 1e18;
    for (int round = 0; round < ROUNDS; round++) {
        std::remove(path);
        File file(ipc::create_only, path, 128 * MIB);
        Vector &vector = *file.construct<Vector>("v")(file.get_allocator<T>());
        const double before = now();
        for (int i = 0; i < ELEMENTS; i++) vector.push_back(T{i});
        least = std::min(least, now() - before);
    }
    print("Boost", what, ELEMENTS, least);
}

bool open_set_close(const char *path) {
    File file(ipc::open_only, path);
    std::int64_t *const found = file.find<std::int64_t>("n").first;
    if (!found) return false;
    *found = 7;
    return true;
}

void make_file(const char *path, std::uint64_t size, int objects) {
    std::remove(path);
    File file(ipc::create_only, path, size);
    for (int i = 0; i < objects; i++) {
        char name[16];
        std::snprintf(name, sizeof name, "name%07d", i);
        file.construct<std::int64_t>(name)(5);
    }
    file.construct<std::int64_t>("n")(5);
}

void run(const char *path, const char *) {
    pushes<std::int64_t>(path, PUSHES);
    pushes<point>(path, OWN_PUSHES);
    for (const std::uint64_t size : EMPTY_SIZES) {
        make_file(path, size, 0);
        let_stand();
        times("Boost", empty_file(size), 1, [&] { return open_set_close(path); });
    }
    make_file(path, FULL_SIZE, OBJECTS);
    let_stand();
    times("Boost", FULL_FILE, 1, [&] { return open_set_close(path); });
    std::remove(path);
}
#endif

} // namespace

int main(int count, char **words) {
    if (count < 2) return 2;
    run(words[1], count > 2 ? words[2] : nullptr);
}
