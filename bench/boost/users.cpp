// What a user of C++ measured first, on this library (compiled with OURS) and on Boost.Interprocess's
// managed_mapped_file (compiled without): each container is kept, and found once. `users FILE` prints a line for each:
// the side, what, how many, and nanoseconds a call, the least of three rounds, of the processor. Compiled with OURS and
// SQLITE it also prints transactions, a cache beside SQLite's, and the memory that a large file takes: FILE, and names
// that begin with it, are files of its own, which it removes.
#ifdef OURS
#include "zaluxhoni.hpp"

#include <sys/resource.h>
#include <sys/wait.h>
#include <unistd.h>
#ifdef SQLITE
#include <sqlite3.h>
#endif
#else
#include <boost/interprocess/allocators/allocator.hpp>
#include <boost/interprocess/containers/map.hpp>
#include <boost/interprocess/containers/string.hpp>
#include <boost/interprocess/containers/vector.hpp>
#include <boost/interprocess/managed_mapped_file.hpp>
#endif

#include <algorithm>
#include <cstdint>
#include <cstdio>
#include <cstdlib>
#include <ctime>
#include <map>
#include <string>
#include <vector>

namespace {

using i64 = std::int64_t;

constexpr std::uint64_t SIZE = 256u << 20;
constexpr int ROUNDS = 3, ELEMENTS = 1000000, PAIRS = 200000, ITEMS = 200000, TEXTS = 50000, NAMES = 100, READS = 200000;

struct item {
    double price, weight;
    i64 article, stock;
};

#ifdef OURS
class Side {
  public:
    explicit Side(const char *)
        : segment_(zaluxhoni::segment::create(SIZE)), vector_(segment_.vector<i64>("v")),
          map_(segment_.map<i64, i64>("m")), items_(segment_.vector<item>("items")), texts_(segment_.strings("texts")) {}

    void push(i64 value) { vector_.push_back(value); }
    i64 get(std::uint64_t at) { return vector_[at]; }
    void add(std::uint64_t at, i64 by) { vector_[at] += by; }
    void put(i64 key, i64 value) { map_[key] = value; }
    i64 look_up(i64 key) { return map_.at(key); }
    i64 sum() {
        i64 sum = 0;
        for (const auto [key, value] : map_) sum += key + value;
        return sum;
    }
    void push_item(const item &of) { items_.push_back(of); }
    double price(std::uint64_t at) { return items_[at]->price; }
    void set_price(std::uint64_t at, double price) {
        items_.modify(at, [&](item &of) { of.price = price; });
    }
    void push_text(const std::string &text) { texts_.push_back(text); }
    void make(const std::string &name, i64 value) { segment_.construct<i64>(name, value); }
    i64 read(const std::string &name) { return segment_.get<i64>(name); }

  private:
    zaluxhoni::segment segment_;
    zaluxhoni::vector<i64> vector_;
    zaluxhoni::map<i64, i64> map_;
    zaluxhoni::vector<item> items_;
    zaluxhoni::strings texts_;
};
#else
namespace ipc = boost::interprocess;

template <class T> using Shared = ipc::allocator<T, ipc::managed_mapped_file::segment_manager>;
template <class T> using Vector = ipc::vector<T, Shared<T>>;
using Text = ipc::basic_string<char, std::char_traits<char>, Shared<char>>;
using Map = ipc::map<i64, i64, std::less<i64>, Shared<std::pair<const i64, i64>>>;

class Side {
  public:
    explicit Side(const char *file)
        : segment_(emptied(file), file, SIZE), vector_(made<Vector<i64>>("v")),
          map_(*segment_.construct<Map>("m")(std::less<i64>(), segment_.get_segment_manager())),
          items_(made<Vector<item>>("items")), texts_(made<Vector<Text>>("texts")) {}

    void push(i64 value) { vector_.push_back(value); }
    i64 get(std::uint64_t at) { return vector_[at]; }
    void add(std::uint64_t at, i64 by) { vector_[at] += by; }
    void put(i64 key, i64 value) { map_[key] = value; }
    i64 look_up(i64 key) { return map_.at(key); }
    i64 sum() {
        i64 sum = 0;
        for (const auto &[key, value] : map_) sum += key + value;
        return sum;
    }
    void push_item(const item &of) { items_.push_back(of); }
    double price(std::uint64_t at) { return items_[at].price; }
    void set_price(std::uint64_t at, double price) { items_[at].price = price; }
    void push_text(const std::string &text) {
        texts_.push_back(Text(text.c_str(), text.size(), segment_.get_segment_manager()));
    }
    void make(const std::string &name, i64 value) { segment_.construct<i64>(name.c_str())(value); }
    i64 read(const std::string &name) { return *segment_.find<i64>(name.c_str()).first; }

  private:
    static ipc::create_only_t emptied(const char *file) {
        std::remove(file);
        return ipc::create_only;
    }
    template <class T> T &made(const char *name) { return *segment_.construct<T>(name)(segment_.get_segment_manager()); }

    ipc::managed_mapped_file segment_;
    Vector<i64> &vector_;
    Map &map_;
    Vector<item> &items_;
    Vector<Text> &texts_;
};
#endif

double now(clockid_t clock = CLOCK_PROCESS_CPUTIME_ID) {
    timespec time{};
    clock_gettime(clock, &time);
    return static_cast<double>(time.tv_sec) * 1e9 + static_cast<double>(time.tv_nsec);
}

struct Time {
    std::string what;
    int count;
    double least;
};
std::vector<Time> times;

void note(const std::string &what, int count, double took) {
    for (Time &each : times)
        if (each.what == what) {
            each.least = std::min(each.least, took / count);
            return;
        }
    times.push_back({what, count, took / count});
}
template <class Call> void of(const std::string &what, int count, Call call) {
    const double before = now();
    bool holds = true;
    for (int i = 0; i < count; i++) holds &= call(i);
    note(what, count, now() - before);
    if (!holds) {
        std::fprintf(stderr, "users: wrong answers to %s\n", what.c_str());
        std::exit(1);
    }
}
void print(const char *side) {
    for (const Time &each : times) std::printf("%s|%s|%d|%.1f\n", side, each.what.c_str(), each.count, each.least);
    times.clear();
}

/// A number below `of` that jumps about: each comes once.
i64 jumping(int i, int of) { return static_cast<i64>(i) * 7919 % of; }

void round(const char *file) {
    Side side(file);
    std::vector<std::string> names, texts;
    for (int i = 0; i < NAMES; i++) names.push_back("the name of a number, " + std::to_string(i));
    for (int i = 0; i < TEXTS; i++) texts.push_back("a text of some thirty bytes, " + std::to_string(i));
    of("push_back of a number", ELEMENTS, [&](int i) { return side.push(3 * i), true; });
    of("v[i]", ELEMENTS, [&](int i) { return side.get(jumping(i, ELEMENTS)) == 3 * jumping(i, ELEMENTS); });
    of("v[i] += 1", ELEMENTS, [&](int i) { return side.add(jumping(i, ELEMENTS), 1), true; });
    of("put of a new key", PAIRS, [&](int i) { return side.put(jumping(i, PAIRS), i), true; });
    of("get of a key", PAIRS, [&](int i) { return side.look_up(jumping(i, PAIRS)) == i; });
    const double before = now();
    const bool holds = side.sum() == i64{PAIRS} * (PAIRS - 1);
    note("a step over the pairs", PAIRS, now() - before);
    if (!holds) std::exit(1);
    of("push_back of 32 bytes", ITEMS, [&](int i) { return side.push_item({0.5 * i, 1, i, i}), true; });
    of("items[i]->price", ITEMS, [&](int i) { return side.price(jumping(i, ITEMS)) >= 0; });
    of("items[i]->price = x", ITEMS, [&](int i) { return side.set_price(jumping(i, ITEMS), i), true; });
    of("push_back of a text", TEXTS, [&](int i) { return side.push_text(texts[i]), true; });
    for (int i = 0; i < NAMES; i++) side.make(names[i], i);
    of("get by one of 100 names", READS, [&](int i) { return side.read(names[i % NAMES]) == i % NAMES; });
}

#ifdef OURS
using zaluxhoni::segment;

segment opened(const std::string &how, const std::string &path, std::uint64_t size) {
    std::remove(path.c_str());
    if (how == "copied") return segment::create(size);
    return how == "mapped" ? segment::create_mapped_file(path, size) : segment::create_durable_file(path, size);
}

/// One put in a transaction, of a map of 1,000 pairs in a segment of some bytes, as time passes.
void transactions(const std::string &path) {
    for (const std::string how : {"copied", "mapped", "durable"})
        for (const std::uint64_t size : {std::uint64_t{1} << 20, std::uint64_t{64} << 20, std::uint64_t{200000000}}) {
            segment s = opened(how, path, size);
            const auto m = s.map<i64, i64>("m");
            for (int i = 0; i < 1000; i++) m[i] = i;
            const int count = how == "copied" ? 20 : 200;
            const double before = now(CLOCK_MONOTONIC);
            for (int i = 0; i < count; i++) s.transaction([&] { m[i % 1000] = 2 * i; });
            note("a put in a transaction of " + std::to_string(size >> 20) + " MiB, " + how, count,
                 now(CLOCK_MONOTONIC) - before);
        }
    std::remove(path.c_str());
}

constexpr int PUTS = 20000, KEPT = 14000;

/// A cache of 14,000 entries, whose oldest goes: 20,000 puts, each a transaction.
void caches(const std::string &path) {
    for (const std::string how : {"copied", "mapped"}) {
        segment s = opened(how, path, 2800000 / 16 * 16);
        const auto values = s.map<i64, i64>("values"), ages = s.map<i64, i64>("ages");
        const double before = now(CLOCK_MONOTONIC);
        for (int i = 0; i < PUTS; i++)
            s.transaction([&] {
                values[i] = 3 * i;
                ages[i] = i;
                if (ages.size() > KEPT) {
                    const auto oldest = ages.first();
                    values.erase(oldest->second);
                    ages.erase(oldest->first);
                }
            });
        note("a put into a cache of 2.8 MB, " + how, PUTS, now(CLOCK_MONOTONIC) - before);
        if (values.size() != KEPT) std::exit(1);
    }
    std::remove(path.c_str());
#ifdef SQLITE
    sqlite3 *db = nullptr;
    std::remove((path + ".db").c_str());
    const auto run = [&](const char *text) {
        if (sqlite3_exec(db, text, nullptr, nullptr, nullptr) != SQLITE_OK) std::exit(1);
    };
    if (sqlite3_open((path + ".db").c_str(), &db) != SQLITE_OK) std::exit(1);
    run("pragma journal_mode = wal");
    run("pragma synchronous = off");
    run("create table cache (key integer primary key, value integer, age integer)");
    run("create index ages on cache (age)");
    sqlite3_stmt *put = nullptr, *cut = nullptr;
    sqlite3_prepare_v2(db, "insert or replace into cache values (?1, ?2, ?3)", -1, &put, nullptr);
    sqlite3_prepare_v2(db, "delete from cache where age <= ?1", -1, &cut, nullptr);
    const double before = now(CLOCK_MONOTONIC);
    for (int i = 0; i < PUTS; i++) {
        run("begin");
        sqlite3_bind_int64(put, 1, i), sqlite3_bind_int64(put, 2, 3 * i), sqlite3_bind_int64(put, 3, i);
        if (sqlite3_step(put) != SQLITE_DONE) std::exit(1);
        sqlite3_reset(put);
        sqlite3_bind_int64(cut, 1, i - KEPT);
        if (sqlite3_step(cut) != SQLITE_DONE) std::exit(1);
        sqlite3_reset(cut);
        run("commit");
    }
    note("a put into a cache of 2.8 MB, SQLite", PUTS, now(CLOCK_MONOTONIC) - before);
    sqlite3_finalize(put), sqlite3_finalize(cut), sqlite3_close(db);
    for (const char *end : {".db", ".db-wal", ".db-shm"}) std::remove((path + end).c_str());
#endif
}

/// The most memory, in MiB, of a process that opens a file of 200 MB, changes one number, and closes it.
void memory(const std::string &path) {
    {
        segment s = segment::create_file(path, 200000000);
        s.construct<std::uint8_t>("bytes", 7, 1 << 20);
        s.vector<i64>("v").assign(std::vector<i64>(23000000, 7));
        s.close_file();
    }
    for (const std::string how : {"copied", "mapped", "durable"}) {
        const pid_t child = fork();
        if (child == 0) {
            segment s = how == "copied"   ? segment::open_file(path)
                        : how == "mapped" ? segment::map_file(path)
                                          : segment::open_durable_file(path);
            s.vector<i64>("v")[5] = 8;
            s.close_file();
            _exit(0);
        }
        rusage used{};
        int status = 0;
        wait4(child, &status, 0, &used);
        if (status != 0) std::exit(1);
        note("MiB of memory for a file of 200 MB, " + how, 1, static_cast<double>(used.ru_maxrss) / 1024);
    }
    std::remove(path.c_str());
}
#endif

} // namespace

int main(int count, char **words) {
    if (count != 2) return 2;
#ifdef OURS
    memory(words[1]);
#endif
    for (int i = 0; i < ROUNDS; i++) round(words[1]);
#ifdef OURS
    transactions(words[1]);
    caches(words[1]);
    print("ours");
#else
    print("Boost");
    std::remove(words[1]);
#endif
}
