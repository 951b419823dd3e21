/* Every call of zaluxhoni.hpp, and by it each of zaluxhoni.h, on the worked examples of docs/LANGUAGE.md, section 11,
   and on what throws. The images that it makes are saved in the folder that is its one argument. */
#include "zaluxhoni.hpp"

#include <cstring>
#include <filesystem>
#include <fstream>
#include <iostream>
#include <sstream>
#include <type_traits>

using namespace std::string_literals;
using zaluxhoni::key;
using zaluxhoni::segment;
using i32 = std::int32_t;
using i64 = std::int64_t;
using u8 = std::uint8_t;
using u64 = std::uint64_t;

namespace {

std::string folder;
int checks, wrong;

template <class T> std::string shown(const T &value) {
    std::ostringstream text;
    if constexpr (std::is_same_v<T, u8>) text << +value;
    else text << value;
    return text.str();
}

template <class T, class U> void is(int line, const char *what, const T &got, const U &wanted) {
    checks++;
    if (got == static_cast<T>(wanted)) return;
    wrong++;
    std::cout << "every_call.cpp:" << line << ": WRONG " << what << ": " << shown(got) << ", not " << shown(wanted) << '\n';
}

template <class Error, class Call> void throws(int line, const char *what, Call call) {
    checks++;
    try {
        call();
    } catch (const Error &) {
        return;
    } catch (const std::exception &other) {
        std::cout << "every_call.cpp:" << line << ": WRONG " << what << ": '" << other.what() << "'\n";
        wrong++;
        return;
    }
    wrong++;
    std::cout << "every_call.cpp:" << line << ": WRONG " << what << ": no error\n";
}

#define IS(got, wanted) is(__LINE__, #got, got, wanted)
#define THROWS(error, ...) throws<zaluxhoni::error>(__LINE__, #__VA_ARGS__, [&] { (void)(__VA_ARGS__); })

std::string path_of(const std::string &name) { return folder + "/cpp-" + name + ".seg"; }

/// Saves the segment, checks its image, and opens its file.
segment reopened(const segment &old, const std::string &name, zaluxhoni::mode mode = zaluxhoni::mode::write) {
    IS(zaluxhoni::check_image(old.save()), u64{ZX_DONE});
    old.save_file(path_of(name));
    return segment::open_file(path_of(name), mode);
}

void an_anonymous_object() {
    segment s = segment::create(1024);
    IS(s.construct<i64>(key::anonymous(), 5), 144);
    IS(s.get<i64>(key::by_handle(144)), 5);
    IS(s.free_bytes(), 832);
}

void names() {
    segment s = segment::create(1024);
    IS(s.construct<i64>("a", 5), 192);
    IS(s.free_bytes(), 784);
    const zaluxhoni::info told = s.tell("a");
    IS(told.found_by, ZX_IS_NAMED);
    IS(told.name, "a"s);
    IS(told.kind, ZX_I64);
    IS(told.count, 1);
    IS(told.handle, 192);
    IS(s.find<i64>("a")->handle, 192);
    IS(s.find<i64>("a"s)->count, 1);
    THROWS(wrong_kind, s.find<u8>("a"));
    IS(s.find<i64>(std::string_view("b")).has_value(), false);
    THROWS(exists, s.construct<u8>("a", 1));
    IS(s.find_or_construct<i64>("a", 9, 3).handle, 192);
    IS(s.find_or_construct<i64>("a", 9, 3).count, 1);
    IS(s.get<i64>("a"), 5);
    s = reopened(s, "names");
    IS(s.get<i64>("a"), 5);
    IS(s.destroy("a"), true);
    IS(s.destroy("a"), false);
    IS(s.free_bytes(), 832);
}

/// The call fails with an error of a file.
template <class Call> void fails(int line, Call call, zx_code wanted, std::errc of_system) {
    checks++;
    try {
        call();
    } catch (const zaluxhoni::file_error &error) {
        if (error.file_code() == wanted && error.code() == of_system) return;
        std::cout << error.what() << '\n';
    }
    wrong++;
    std::cout << "every_call.cpp:" << line << ": WRONG error of a file\n";
}

void files() {
    const std::string path = path_of("file"), link = folder + "/cpp-link";
    std::filesystem::remove(path);
    std::filesystem::remove(link);
    segment s = segment::open_or_create_file(path, 1024);
    IS(std::filesystem::file_size(path), 1024);
    s.construct<i64>("a", 5);
    s.save_file(path);
    IS(segment::open_file(path, zaluxhoni::mode::read).get<i64>("a"), 5);
    IS(segment::open_file(path, zaluxhoni::mode::copy_on_write).mode() == zaluxhoni::mode::copy_on_write, true);
    THROWS(bad_mode, segment::open_file(path, static_cast<zaluxhoni::mode>(3)));
    // it is held until it is closed
    fails(__LINE__, [&] { return segment::open_file(path); }, ZX_FILE_IN_USE, std::errc::operation_would_block);
    fails(__LINE__, [&] { return segment::open_or_create_file(path, 7); }, ZX_FILE_IN_USE, std::errc::operation_would_block);
    fails(__LINE__, [&] { return segment::create_file(path, 1024); }, ZX_FILE_EXISTS, std::errc::file_exists);
    segment other = segment::create(1024);
    fails(__LINE__, [&] { other.save_file(path); }, ZX_FILE_IN_USE, std::errc::operation_would_block);
    THROWS(no_file, other.save_file());
    std::filesystem::permissions(path, std::filesystem::perms::owner_read | std::filesystem::perms::owner_write);
    std::filesystem::create_symlink(std::filesystem::path(path).filename(), link);
    s.set<i64>("a", 0, 6);
    s.save_file(link);
    IS(std::filesystem::is_symlink(link), true);
    IS(segment::open_file(path, zaluxhoni::mode::read).get<i64>("a"), 6);
    IS(static_cast<unsigned>(std::filesystem::status(path).permissions()), 0600u);
    s.set<i64>("a", 0, 7);
    segment moved = std::move(s);
    moved.save_file();
    moved.set<i64>("a", 0, 8);
    moved.close_file();
    IS(moved.is_open(), false);
    THROWS(closed, moved.close_file());
    THROWS(closed, moved.save_file());
    // what is not saved is not there
    {
        segment lost = segment::open_file(link);
        IS(lost.get<i64>("a"), 8);
        lost.set<i64>("a", 0, 9);
    }
    s = segment::open_file(path);
    IS(s.get<i64>("a"), 8);
    // a name that leads to another file
    std::filesystem::remove(path);
    s.set<i64>("a", 0, 9);
    fails(__LINE__, [&] { s.save_file(); }, ZX_FILE_REPLACED, std::errc(ESTALE));
    fails(__LINE__, [&] { s.save_file(path); }, ZX_FILE_REPLACED, std::errc(ESTALE));
    fails(__LINE__, [&] { s.close_file(); }, ZX_FILE_REPLACED, std::errc(ESTALE));
    s.save_file(path_of("other"));
    IS(segment::open_file(path_of("other")).get<i64>("a"), 9);
    s.close();
    // one that is never saved is removed
    { segment::create_file(path, 1024).construct<i64>("a", 5); }
    IS(std::filesystem::exists(path), false);
    IS(std::filesystem::exists(link), false);
    fails(__LINE__, [&] { return segment::open_file(link); }, ZX_FILE_DANGLES, std::errc::no_such_file_or_directory);
    fails(__LINE__, [&] { return segment::open_or_create_file(link, 1024); }, ZX_FILE_DANGLES, std::errc::no_such_file_or_directory);
    std::filesystem::remove(link);
    const std::string none = folder + "/none/a.seg", cut = path + '\0' + "more";
    segment s2 = segment::create(1024);
    fails(__LINE__, [&] { s2.save_file(none); }, ZX_FILE_MISSING, std::errc::no_such_file_or_directory);
    fails(__LINE__, [&] { s2.save_file(cut); }, ZX_FILE_FAULT, std::errc::invalid_argument);
    fails(__LINE__, [&] { return segment::open_file(path_of("none")); }, ZX_FILE_MISSING, std::errc::no_such_file_or_directory);
    fails(__LINE__, [&] { return segment::open_file(folder); }, ZX_FILE_FOLDER, std::errc::is_a_directory);
    fails(__LINE__, [&] { return segment::open_or_create_file(folder, 1024); }, ZX_FILE_FOLDER, std::errc::is_a_directory);
    fails(__LINE__, [&] { return segment::open_file("/dev/null"); }, ZX_FILE_DEVICE, std::errc::invalid_argument);
    THROWS(bad_size, segment::create_file(path, 7));
    IS(std::filesystem::exists(path), false);
}

void mapped_files() {
    const std::string path = path_of("mapped");
    std::filesystem::remove(path);
    {
        segment s = segment::create_mapped_file(path, 1024);
        s.construct<i64>("a", 5);
        IS(segment::open_file(path, zaluxhoni::mode::read).get<i64>("a"), 5);
        fails(__LINE__, [&] { return segment::map_file(path); }, ZX_FILE_IN_USE, std::errc::operation_would_block);
        s.grow(1024);
        IS(std::filesystem::file_size(path), 2048);
        zaluxhoni::vector<i64> v = s.vector<i64>("v");
        for (i64 i = 0; i < 1000; i++) s.growing([&] { v.push_back(i); });
        IS(std::filesystem::file_size(path), s.size());
        IS(v.get(999), 999);
        s.destroy("v");
        s.shrink();
        IS(std::filesystem::file_size(path), s.size());
        s.set_growing(true);
        s.vector<i64>("w").resize(5000);
        IS(std::filesystem::file_size(path), s.size());
        const u64 before = s.size();
        THROWS(absent, s.transaction([&] {
            s.vector<i64>("w").resize(20000);
            s.vector<i64>("w").view()[0] = 7;
            throw zaluxhoni::absent();
        }));
        IS(s.size(), before);
        IS(std::filesystem::file_size(path), before);
        IS(i64{s.vector<i64>("w")[0]}, 0);
        s.vector<i64>("w").view()[0] = 8;
        IS(segment::open_file(path, zaluxhoni::mode::read).vector<i64>("w").cview()[0], 8);
        s.set<i64>("a", 0, 6);
        s.flush_file();
    }
    segment one = segment::map_file(path, zaluxhoni::mode::read);
    segment other = segment::map_file(path, zaluxhoni::mode::copy_on_write);
    other.set<i64>("a", 0, 7);
    IS(one.get<i64>("a"), 6);
    fails(__LINE__, [&] { return segment::open_file(path); }, ZX_FILE_IN_USE, std::errc::operation_would_block);
    one.close();
    other.close();
    segment last = segment::map_or_create_file(path, 1024);
    IS(last.get<i64>("a"), 6);
    last.close_file();
}

void index_and_object_do_not_both_fit() {
    segment s = segment::create(224);
    THROWS(no_space, s.construct<i64>("a", 5));
    IS(s.free_bytes(), 80);
    IS(s.construct<i64>(key::anonymous(), 5), 144);
    IS(s.free_bytes(), 32);
}

void arrays() {
    segment s = segment::create(1024);
    IS(s.construct<i64>("v", 7, 3), 192);
    const zaluxhoni::array<i64> v = s.array<i64>("v");
    IS(v.size(), 3);
    for (const i64 each : v) IS(each, 7);
    IS(s.free_bytes(), 768);
    v[1] = 300;
    IS(i64{v[1]}, 300);
    IS(s.get<i64>("v", 1), 300);
    THROWS(out_of_range, v.get(3));
    THROWS(wrong_kind, s.set<bool>("v", 0, true));
    THROWS(wrong_kind, s.get<u8>("v"));
    THROWS(wrong_kind, s.array<u64>("v"));
    s.construct_array<i32>("w", {1, -2});
    IS(s.array<i32>("w").get(1), -2);
    THROWS(bad_count, s.construct_array<i32>("x", {}));
    THROWS(bad_count, s.construct<i32>("x", 0, 1048577));
    s = reopened(s, "arrays");
    IS(s.get<i64>("v", 1), 300);
    IS(s.get<i32>("w", 1), -2);
}

void the_only_object_of_its_kind() {
    segment s = segment::create(1024);
    const key only = key::unique<u64>();
    IS(s.construct<u64>(only, 9), 192);
    THROWS(exists, s.construct<u64>(only, 1));
    THROWS(wrong_kind, s.find<u8>(only));
    IS(s.tell(only).found_by, ZX_IS_UNIQUE);
    IS(s.tell(only).name, ""s);
    IS(s.unique().size(), 1);
    IS(s.unique().front().kind, ZX_U64);
    IS(s.unique().front().handle, 192);
    IS(s.destroy(only), true);
    IS(s.num_unique(), 0);
    IS(s.all_deallocated(), false);
    s.shrink_indexes();
    IS(s.all_deallocated(), true);
}

void places_reserved_in_the_indexes() {
    segment s = segment::create(1024);
    s.reserve_named(5);
    s.reserve_unique(1);
    u64 handle = 240;
    for (const char *name : {"a", "b", "c", "d"}) {
        IS(s.construct<i64>(name, 1), handle);
        handle += 48;
    }
    IS(s.num_named(), 4);
    const std::vector<zaluxhoni::info> listed = s.named();
    IS(listed.size(), 4);
    IS(listed[3].name, "d"s);
    IS(listed[3].handle, 384);
    IS(listed[3].count, 1);
    s.shrink_indexes();
    IS(s.free_bytes(), 624);
    s.shrink_indexes();
    IS(s.free_bytes(), 640);
}

void best_fit() {
    segment s = segment::create(1024);
    for (u64 handle = 144; handle <= 288; handle += 48) IS(s.construct<i64>(key::anonymous(), 1), handle);
    IS(s.destroy(key::by_handle(144)), true);
    IS(s.destroy(key::by_handle(240)), true);
    IS(s.construct<i64>(key::anonymous(), 2), 144);
    THROWS(not_found, s.destroy(key::by_handle(240)));
}

void storage_is_lengthened_then_replaced() {
    const zx_tile wanted[] = {{128, 48, ZX_INDEX},  {176, 64, ZX_OBJECT},   {240, 80, ZX_GAP},
                              {320, 48, ZX_OBJECT}, {368, 144, ZX_STORAGE}, {512, 496, ZX_GAP}};
    segment s = segment::create(1024);
    IS(s.construct_vector<i64>("v"), 192);
    const zaluxhoni::vector<i64> v = s.vector<i64>("v");
    for (i64 i = 1; i <= 5; i++) v.push_back(i);
    IS(s.free_bytes(), 688);
    IS(v.size(), 5);
    IS(v.capacity(), 8);
    IS(s.construct<i64>(key::anonymous(), 9), 336);
    for (i64 i = 6; i <= 9; i++) v.push_back(i);
    const std::vector<zx_tile> tiles = s.tiles();
    IS(tiles.size(), 6);
    for (std::size_t i = 0; i < tiles.size() && i < 6; i++) {
        IS(tiles[i].offset, wanted[i].offset);
        IS(tiles[i].len, wanted[i].len);
        IS(tiles[i].use, wanted[i].use);
    }
    s = reopened(s, "storage");
    IS((s.vector<i64>("v").to_vector() == std::vector<i64>{1, 2, 3, 4, 5, 6, 7, 8, 9}), true);
}

/// A vector knows where its elements are after a push; also where they moved, and where another call changed them.
void elements_are_read_between_pushes() {
    segment s = segment::create(1024);
    s.set_growing(true);
    const zaluxhoni::vector<i64> v = s.vector<i64>("v"), same = s.vector<i64>("v");
    const zaluxhoni::vector<i64> other = s.vector<i64>("other");
    for (i64 i = 0; i < 300; i++) {
        v.push_back(i);
        IS(v.get(static_cast<u64>(i)), i);
        IS(v.size(), static_cast<u64>(i) + 1);
        THROWS(out_of_range, v.get(static_cast<u64>(i) + 1));
        if (i % 7 == 0) other.push_back(i);
        if (i % 11 == 0) v.shrink_to_fit();
        if (i % 13 == 0) v.reserve(v.size() + 5);
        if (i % 5 == 0) {
            same.push_back(-i);
            IS(v.get(v.size() - 1), -i);
            IS(v.pop_back(), -i);
        }
        v[0] = i;
        IS(same.get(0), i);
    }
    const i64 last = v.emplace_back(7);
    IS(last, 7);
    s.destroy("v");
    THROWS(not_found, v.push_back(8));
    THROWS(not_found, v.get(0));
}

void a_string_grows_and_shrinks() {
    segment s = segment::create(1024);
    IS(s.construct_string("s", "ab"), 192);
    zaluxhoni::string text = s.string("s");
    text.append("cdefg");
    IS(text.size(), 7);
    IS(text.capacity(), 16);
    IS(s.free_bytes(), 736);
    text.shrink_to_fit();
    text += "0123456789";
    IS(text.size(), 17);
    IS(text.capacity(), 17);
    IS(s.free_bytes(), 720);
    IS(text.get(0), 97);
    text[0] = 65;
    THROWS(out_of_range, text.get(17));
    THROWS(wrong_kind, s.vector<u8>("s"));
    IS(text.str(), "Abcdefg0123456789"s);
    s = reopened(s, "string");
    text = s.string("s");
    text.clear();
    IS(text.str(), ""s);
    text.shrink_to_fit();
    IS(s.free_bytes(), 768);
    const std::string longer(300, 'x');
    THROWS(no_space, text.assign(std::string(2000, 'x')));
    text.assign(longer);
    s = reopened(s, "longer");
    text = s.string("s");
    IS(text.str(), longer);
    text.assign("a\0b"s);
    IS(text.str(), "a\0b"s);
    IS(std::string(text.begin(), text.end()), "a\0b"s);
    text.assign({});
    IS(text.empty(), true);
    text.reserve(400);
    IS(text.capacity(), 400);
}

void a_map() {
    segment s = segment::create(1024);
    IS((s.construct_map<i64, i64>("m")), 192);
    zaluxhoni::map<i64, i64> m = s.map<i64, i64>("m");
    IS(m.first().has_value(), false);
    IS(m.begin() == m.end(), true);
    for (const i64 at : {4, 2, 6, 1, 3, 5, 7}) IS(m.put(at, 10 * at), true);
    IS(m.erase(4), true);
    IS(m.erase(4), false);
    IS(m.size(), 6);
    s = reopened(s, "map");
    m = s.map<i64, i64>("m");
    std::string shown_pairs;
    for (const auto &[at, value] : m) shown_pairs += shown(at) + "=" + shown(value) + " ";
    IS(shown_pairs, "1=10 2=20 3=30 5=50 6=60 7=70 "s);
    IS(m.next(3)->first, 5);
    IS(m.next(7).has_value(), false);
    IS(s.free_bytes(), 480);
    IS(m.put(1, 11), false);
    IS(m.at(1), 11);
    IS(m.lookup(4).has_value(), false);
    IS(m.find(4) == m.end(), true);
    IS(m.contains(7), true);
    THROWS(absent, m.at(4));
    m[7] = 71;
    IS(i64{m[7]}, 71);
    IS((m.to_map() == std::map<i64, i64>{{1, 11}, {2, 20}, {3, 30}, {5, 50}, {6, 60}, {7, 71}}), true);
    THROWS(wrong_kind, (s.map<i32, i64>("m")));
}

void refusals_of_a_vector() {
    segment s = segment::create(1024);
    IS(s.construct_vector<i32>("w", {1, 2, 3}), 192);
    const zaluxhoni::vector<i32> w = s.vector<i32>("w");
    w.insert(1, 9);
    IS(w.size(), 4);
    IS(w.capacity(), 6);
    w.erase(0);
    IS(w.pop_back(), 3);
    THROWS(out_of_range, w.get(5));
    THROWS(wrong_kind, s.set<bool>("w", 7, true));
    THROWS(out_of_range, s.set<i64>("w", 0, 3000000000));
    THROWS(wrong_kind, s.string("w"));
    THROWS(no_space, w.reserve(1000));
    IS((w.to_vector() == std::vector<i32>{9, 2}), true);
    w.assign({5, -6, 7});
    w.set(2, w[0]);
    IS((w.to_vector() == std::vector<i32>{5, -6, 5}), true);
    const std::vector<i32> list{8};
    w.assign(list);
    IS(w.size(), 1);
#if __cplusplus >= 202002L
    w.assign(std::span<const i32>(list));
    IS(w.size(), 1);
#endif
    const i32 array[] = {1, 2};
    w.assign(array);
    IS(w.size(), 2);
    w.shrink_to_fit();
    IS(w.capacity(), 2);
    w.clear();
    IS(w.empty(), true);
    w.assign(std::vector<i32>());
    THROWS(out_of_range, w.pop_back());
}

void a_vector_of_strings() {
    segment s = segment::create(1024);
    IS(s.construct_strings("v", {"a", "bc"}), 192);
    IS(s.free_bytes(), 656);
    const zaluxhoni::strings v = s.strings("v");
    v.push_back("def");
    IS(s.free_bytes(), 592);
    IS(v.pop_back(), "def"s);
    IS(s.free_bytes(), 624);
    v.set(0, "");
    THROWS(wrong_kind, s.set<i64>("v", 0, 5));
    IS((v.to_vector() == std::vector<std::string>{"", "bc"}), true);
    s = reopened(s, "texts");
    const zaluxhoni::strings again = s.strings("v");
    again.insert(0, "first");
    again[1] = std::string(300, 'y');
    IS(again.get(1), std::string(300, 'y'));
    again.erase(1);
    IS((again.to_vector() == std::vector<std::string>{"first", "bc"}), true);
    again.assign({"x", "", "z"});
    IS(again.size(), 3);
    IS(again.capacity(), 3);
    again.reserve(4);
    again.shrink_to_fit();
    again.clear();
    THROWS(out_of_range, again.pop_back());
    THROWS(out_of_range, again.get(0));
}

void objects_found_or_made() {
    segment s = segment::create(4096);
    const u64 vector = s.find_or_construct_vector<u8>("v", {200}).handle;
    IS(s.find_or_construct_vector<u8>("v", {7, 8}).handle, vector);
    IS(s.vector<u8>("v").get(0), 200);
    const u64 text = s.find_or_construct_string("t", "text").handle;
    IS(s.find_or_construct_string("t", "other").handle, text);
    IS(s.string("t").str(), "text"s);
    const u64 texts = s.find_or_construct_strings("l", {"only"}).handle;
    IS(s.find_or_construct_strings("l").handle, texts);
    IS(s.find<std::vector<std::string>>("l")->handle, texts);
    const u64 map = s.find_or_construct_map<i32, bool>("m").handle;
    IS((s.find_or_construct_map<i32, bool>("m").handle), map);
    IS((s.find<std::map<i32, bool>>("m")->handle), map);
    THROWS(wrong_kind, (s.find_or_construct_map<i32, bool>("v")));
    s.vector<bool>("made").push_back(true);
    s.map<u8, u64>("made too")[255] = 18446744073709551615u;
    IS((s.map<u8, u64>("made too").first()->second), 18446744073709551615u);
    IS(bool{s.vector<bool>("made")[0]}, true);
    s.strings("made as well").push_back("text");
    s.string("made at last").append("text");
    const u64 handle = s.construct_vector<i64>(key::anonymous(), {1, 2});
    s.vector<i64>(key::by_handle(handle)).push_back(3);
    IS(s.vector<i64>(key::by_handle(handle)).size(), 3);
    THROWS(wrong_kind, s.vector<i32>(key::by_handle(handle)));
    reopened(s, "found");
}

void many_at_once() {
    segment s = segment::create(4096);
    const u64 handle = s.construct_array<i64>("a", {7, -8, 9});
    IS(s.find<i64>("a")->handle, handle);
    IS(s.find<i64>("a")->count, 3);
    THROWS(exists, s.construct_array<i64>("a", {1}));
    const zaluxhoni::array<i64> a = s.array<i64>("a");
    IS((a.to_vector() == std::vector<i64>{7, -8, 9}), true);
    i64 row[2] = {1, 1};
    a.read(1, row, 2);
    IS(row[0], -8);
    IS(row[1], 9);
    THROWS(out_of_range, a.read(2, row, 2));
    IS(row[0], -8);
    a.write(1, {20, 30});
    IS((a.to_vector() == std::vector<i64>{7, 20, 30}), true);
    THROWS(out_of_range, a.write(2, {1, 2}));
    THROWS(wrong_kind, s.write<i32>("a", 0, {1}));
    s.read<i64>("a", 2, row, 1);
    IS(row[0], 30);
    i64 *const nowhere = nullptr;
    s.read<i64>("a", 3, nowhere, 0);
    a.read(3, nowhere, 0);
    THROWS(out_of_range, s.read<i64>("a", 4, nowhere, 0));
    THROWS(null_slice, s.read<i64>("a", 0, nowhere, 1));
    s.construct_vector<i32>("v", {1, 2, 3});
    const zaluxhoni::vector<i32> v = s.vector<i32>("v");
    v.write(0, {4, 5});
    IS((v.to_vector() == std::vector<i32>{4, 5, 3}), true);
    v.clear();
    IS(v.to_vector().size(), 0);
    s.construct_array<bool>("b", {true, false, true});
    IS((s.array<bool>("b").to_vector() == std::vector<bool>{true, false, true}), true);
    s.construct_array<u8>("u8", {255, 0});
    IS((s.array<u8>("u8").to_vector() == std::vector<u8>{255, 0}), true);
    s.construct_array<u64>("u64", {UINT64_MAX});
    IS(s.array<u64>("u64").to_vector()[0], UINT64_MAX);
    s.construct_array<i32>("i32", {INT32_MIN});
    IS(s.array<i32>("i32").to_vector()[0], INT32_MIN);
#if __cplusplus >= 202002L
    std::vector<i64> all(3);
    a.read(0, std::span<i64>(all));
    IS((all == std::vector<i64>{7, 20, 30}), true);
    a.write(0, std::span<const i64>(all));
#endif
    s = reopened(s, "many", zaluxhoni::mode::read);
    THROWS(read_only, s.write<i64>("a", 0, {1}));
}

/// What was asked of an object is for that one. When it is destroyed and another one gets its handle, what is read is of
/// that one, or nothing is read.
void another_kind_under_the_handle() {
    segment s = segment::create(4096);
    const zaluxhoni::vector<i64> v = s.vector<i64>("v");
    const zaluxhoni::map<i64, i64> m = s.map<i64, i64>("m");
    s.construct<i64>("a", 1);
    const zaluxhoni::array<i64> a = s.array<i64>("a");
    for (const char *name : {"v", "m", "a"}) IS(s.destroy(name), true);
    THROWS(not_found, v.get(1));
    THROWS(not_found, v.push_back(1));
    THROWS(not_found, v.pop_back());
    THROWS(not_found, v.size());
    THROWS(not_found, v.to_vector());
    THROWS(not_found, a.get(0));
    THROWS(not_found, a.size());
    THROWS(not_found, m.find(1));
    THROWS(not_found, m.first());
    THROWS(not_found, m.put(1, 1));
    // the free places are those that they had
    const u64 handle = s.construct_vector<u64>(key::anonymous(), {7, UINT64_MAX});
    IS(handle == v.handle() || handle == m.handle() || handle == a.handle(), true);
    const segment &kept = s;
    IS(zaluxhoni::vector<u64>(kept, key::by_handle(handle)).size(), 2);
    THROWS(wrong_kind, zaluxhoni::vector<i64>(kept, key::by_handle(handle)));

    segment one = segment::create(4096), two = segment::create(4096), three = segment::create(4096);
    const zaluxhoni::vector<i64> first = one.vector<i64>("v");
    const zaluxhoni::map<i64, i64> second = two.map<i64, i64>("m");
    three.construct<i64>("a", 1);
    const zaluxhoni::array<i64> third = three.array<i64>("a");
    IS(one.destroy("v") && two.destroy("m") && three.destroy("a"), true);
    IS(one.construct_vector<u64>("v", {7, UINT64_MAX}), first.handle());
    IS((two.construct_map<i64, u64>("m")), second.handle());
    IS(three.construct<u64>("a", UINT64_MAX), third.handle());
    two.map<i64, u64>("m").put(1, UINT64_MAX);
    const std::vector<u8> before = one.save();
    THROWS(wrong_kind, first.get(1));
    THROWS(wrong_kind, i64{first[1]});
    THROWS(wrong_kind, first.begin()[0].value());
    THROWS(wrong_kind, first.pop_back());
    THROWS(wrong_kind, first.to_vector());
    THROWS(wrong_kind, second.find(1));
    THROWS(wrong_kind, second.first());
    THROWS(wrong_kind, second.next(0));
    THROWS(wrong_kind, (zaluxhoni::map<u8, u64>(two, "m")));
    THROWS(wrong_kind, third.get(0));
    THROWS(wrong_kind, third.size());
    IS((one.save() == before), true);
    IS(one.vector<u64>("v").pop_back(), UINT64_MAX);
    IS(one.vector<u64>("v").size(), 1);
}

/// One object of each kind, by the calls that every_call.c makes: all three programs save the same bytes.
void one_of_each() {
    segment s = segment::create(4096);
    const key map = key::unique<std::map<i32, bool>>();
    const u64 text = s.construct_string(key::anonymous(), "a\0\"b"s);
    s.construct_vector<u8>(key::anonymous(), {1, 2, 255});
    s.construct_array<i32>(key::anonymous(), {INT32_MIN, INT32_MAX});
    s.construct_array<i64>("a", {7, -2});
    s.construct<u64>("largest", UINT64_MAX);
    s.construct_array<bool>("truths", {true, false, true});
    s.construct_strings("two words", {"hello", "", "gr\xc3\xb6\xc3\x9f" "er"});
    s.construct_vector<i64>("numbers", {1, 2, 3});
    s.construct<u8>(key::unique<u8>(), 200);
    s.construct_map<i32, bool>(map);
    s.map<i32, bool>(map).put(7, true);
    s.map<i32, bool>(map).put(-7, false);
    s.map<i32, bool>(map).put(0, true);
    s.construct<i64>("gone", 9, 5);
    s.array<i64>("a")[1] = 300;
    s.vector<i64>("numbers").push_back(4);
    s.vector<i64>("numbers").insert(0, 9);
    s.vector<i64>("numbers").erase(1);
    s.array<bool>("truths").write(1, {true, false});
    s.strings("two words").push_back("last");
    s.strings("two words").set(0, "first");
    s.map<i32, bool>(map)[7] = false;
    s.map<i32, bool>(map).erase(0);
    s.string(key::by_handle(text)).append("!");
    IS(s.destroy("gone"), true);
    reopened(s, "each");
}

void size_and_region() {
    segment s = segment::create(208);
    THROWS(no_space, s.construct<i64>("numbers", 0, 100));
    THROWS(bad_growth, s.grow(33));
    THROWS(too_large, s.grow(1073741824));
    s.grow(1024);
    s.construct<i64>("numbers", 0, 100);
    s.shrink();
    IS(s.size(), 1040);
    THROWS(short_region, s.relocate(1024));
    THROWS(bad_size, s.relocate(1030));
    s.relocate(2048);
    IS(s.region_left(), 1008);
    s.zero_free();
    IS(s.sanity(), true);
    s = reopened(s, "grown");
    const zaluxhoni::vector<i64> v = s.growing([&] { return s.vector<i64>("v"); });
    for (i64 i = 0; i < 1000; i++) s.growing([&] { v.push_back(i); });
    IS(v.get(999), 999);
    IS(s.size() >= 1040 + 8000, true);
    reopened(s, "longer-still");
}

void modes() {
    segment s = segment::create(1024);
    IS(s.construct<i64>("a", 5), 192);
    IS(s.mode() == zaluxhoni::mode::write, true);
    s = reopened(s, "modes", zaluxhoni::mode::read);
    IS(s.mode() == zaluxhoni::mode::read, true);
    THROWS(read_only, s.set<i64>("a", 0, 6));
    THROWS(read_only, s.vector<i64>("v"));
    THROWS(read_only, s.destroy("a"));
    THROWS(read_only, s.grow(32));
    IS(s.get<i64>("a"), 5);
    s = segment::open(s.save(), zaluxhoni::mode::copy_on_write, 4096);
    s.set<i64>("a", 0, 6);
    IS(s.get<i64>("a"), 6);
    IS(s.region_left(), 3072);
}

/// The calls that C++ has no names of its own for.
void calls_of_c() {
    segment made = segment::create(1024);
    made.construct<i64>("a/1", 5);
    std::vector<u8> image = made.save();
    zx_segment s = ZX_CLOSED_HANDLE;
    zx_memory memory = {image.data(), image.size()};
    u64 place = 7;
    IS(zx_open(&s, image.data(), image.size(), 512, ZX_WRITE), u64{ZX_SHORT_REGION});
    IS(zx_attach_explained(&s, &memory, 1008, ZX_WRITE, &place), u64{ZX_TRUNCATED});
    IS(place, u64{1008});
    IS(zx_attach(&s, &memory, image.size(), ZX_WRITE), u64{ZX_DONE});
    const zx_key name = zx_name("a/1");
    zx_elements there;
    IS(zx_view(&s, &name, &there), u64{ZX_DONE});
    IS(*static_cast<const i64 *>(there.at), 5);
    zx_segment before = ZX_CLOSED_HANDLE;
    IS(zx_begin(&s, &before), u64{ZX_DONE});
    IS(zx_view_mut(&s, &name, &there), u64{ZX_DONE});
    *static_cast<i64 *>(zx_elements_mut(&s, &there)) = 6;
    IS(zx_rollback(&s, &before), u64{ZX_DONE});
    IS(zx_is_current(&s, &there), false);
    zx_file none = ZX_CLOSED_FILE;
    zx_step step = ZX_NO_STEP;
    IS(zx_file_rollback(&none, &before), u64{ZX_CLOSED});
    zx_file_leave(&none, &step);
    IS(zx_version(), u64{ZX_VERSION});
    IS(std::string_view{zx_state()}.substr(0, 6) == "state ", true);
    IS(std::string(zx_message(ZX_NO_SPACE)) == "no space", true);
    IS(zx_view(&s, &name, &there), u64{ZX_DONE});
    IS(*static_cast<const i64 *>(there.at), 5);
    u64 index = 7;
    IS(zx_named_from(&s, reinterpret_cast<const u8 *>("a/"), 2, &index), u64{ZX_DONE});
    IS(index, 0);
    IS(zx_detach(&s, &memory), u64{ZX_DONE});
    IS(memory.at == image.data(), true);
}

/// The place that bytes are refused with, as an image and as that of a file.
void is_shown(int line, const std::vector<u8> &image, int number, u64 place) {
    const std::string path = path_of("shown");
    std::ofstream(path, std::ios::binary)
        .write(reinterpret_cast<const char *>(image.data()), static_cast<std::streamsize>(image.size()));
    const auto shows = [&](auto open) {
        try {
            static_cast<void>(open());
            is(line, "no image", "it is opened"s, ""s);
        } catch (const zaluxhoni::bad_image &error) {
            is(line, "the class", error.number(), number);
            is(line, "the place", error.place(), place);
        }
    };
    shows([&] { return segment::open(image); });
    shows([&] { return segment::open_file(path, zaluxhoni::mode::read); });
    shows([&] { return segment::open_file(path); });
    std::filesystem::remove(path);
}

/// The byte that shows each class, in the image of two vectors.
void what_shows_a_class() {
    segment s = segment::create(1024);
    const std::vector<i64> three{1, 2, 3}, one{1};
    const u64 at = s.construct_vector<i64>("a", three), other = s.construct_vector<i64>("b", one);
    const std::vector<u8> image = s.save();
    const auto changed = [&](u64 from, std::vector<u64> words) {
        std::vector<u8> copy = image;
        std::memcpy(copy.data() + from, words.data(), 8 * words.size());
        return copy;
    };
    const auto word = [&](u64 from) {
        u64 found;
        std::memcpy(&found, image.data() + from, 8);
        return found;
    };
    const u64 first = at + 24 + word(at + 24), second = other + 24 + word(other + 24);
    is_shown(__LINE__, {image.begin(), image.begin() + 1008}, 1, 1008);
    is_shown(__LINE__, changed(0, {word(0) ^ 1u << 24}), 2, 3);
    is_shown(__LINE__, changed(8, {9}), 3, 8);
    is_shown(__LINE__, changed(16, {1025}), 4, 16);
    is_shown(__LINE__, changed(88, {1}), 5, 88);
    is_shown(__LINE__, changed(128, {16}), 6, 128);
    is_shown(__LINE__, changed(24, {1}), 7, 24);
    is_shown(__LINE__, changed(40, {99}), 8, 40);
    is_shown(__LINE__, changed(at, {99}), 9, at);
    is_shown(__LINE__, changed(other + 24, {first - (other + 24)}), 10, other + 24);
    is_shown(__LINE__, changed(at + 32, {99}), 11, at);
    is_shown(__LINE__, changed(other + 24, {1, 0, 0}), 12, second);
}

void what_is_refused() {
    segment s = segment::create(1024);
    std::vector<u8> image = s.save();
    THROWS(bad_size, segment::create(160));
    THROWS(short_region, segment::open(image, zaluxhoni::mode::write, 1008));
    THROWS(bad_size, segment::open(image, zaluxhoni::mode::write, 1025));
    THROWS(bad_mode, segment::open(image, static_cast<zaluxhoni::mode>(3)));
    THROWS(null_slice, segment::open({nullptr, 1024}));
    throws<zaluxhoni::null_slice>(__LINE__, "null texts", [&] { s.construct_strings("t", {nullptr, 2}); });
    throws<zaluxhoni::null_slice>(__LINE__, "null texts", [&] { s.find_or_construct_strings("t", {nullptr, 2}); });
    throws<zaluxhoni::null_slice>(__LINE__, "null texts", [&] { s.strings("t").assign({nullptr, 2}); });
    throws<zaluxhoni::null_slice>(__LINE__, "null row", [&] { s.vector<i64>("v").append_range({nullptr, 2}); });
    THROWS(short_buffer, s.save(image.data(), 1023));
    const std::vector<u8> half(image.begin(), image.begin() + 512);
    IS(zaluxhoni::check_image(half), u64{ZX_TRUNCATED});
    try {
        static_cast<void>(segment::open(half));
        IS("half an image is opened"s, ""s);
    } catch (const zaluxhoni::bad_image &error) {
        IS(error.number(), 1);
        IS(error.code(), u64{ZX_TRUNCATED});
        IS(error.place(), u64{512});
    }
    image[0] ^= 1;
    IS(zaluxhoni::check_image(image), u64{ZX_BAD_MAGIC});
    THROWS(null_slice, s.construct<i64>(static_cast<const char *>(nullptr), 1));
    THROWS(bad_name, s.construct<i64>("", 1));
    THROWS(bad_name, s.construct<i64>(std::string_view(), 1));
    THROWS(bad_name, s.construct<i64>(std::string(256, 'n'), 1));
    THROWS(bad_key, s.construct<i64>(key::by_handle(144), 1));
    THROWS(bad_kind, s.construct<i64>(key::unique<u8>(), 1));
    THROWS(not_found, s.get<i64>("a"));
}

void segments_move() {
    static_assert(!std::is_copy_constructible_v<segment> && std::is_nothrow_move_constructible_v<segment>);
    segment nothing;
    IS(nothing.is_open(), false);
    THROWS(closed, nothing.size());
    segment s = segment::create(1024);
    const zaluxhoni::vector<i64> v = s.vector<i64>("v");
    segment moved = std::move(s);
    THROWS(closed, s.size());
    v.push_back(1);
    IS(moved.vector<i64>("v").size(), 1);
    moved.close();
    IS(static_cast<bool>(moved), false);
    THROWS(closed, moved.size());
    THROWS(closed, v.size());
}

/// What was asked of a segment finds it closed behind the destructor, and where another segment has taken its place.
void segments_end_before_their_objects() {
    segment s = segment::create(1024);
    const zaluxhoni::vector<i64> v = s.vector<i64>("v");
    s = segment::create(1024);
    s.construct_vector<i64>("v", {1});
    THROWS(closed, v.size());
    THROWS(closed, v.push_back(2));
    const zaluxhoni::vector<i64> later = s.vector<i64>("v");
    IS(later.size(), 1);
    s = segment();
    THROWS(closed, later.size());
    THROWS(closed, s.size());
    const zaluxhoni::strings texts = segment::create(1024).strings("t");
    THROWS(closed, texts.push_back("text"));
}

void errors_say_what() {
    IS(zaluxhoni::words(ZX_READ_ONLY), "read only"s);
    IS(zaluxhoni::words(1000), "code 1000"s);
    IS(std::string(zaluxhoni::no_space().what()), "no space"s);
    static_assert(std::is_base_of_v<std::runtime_error, zaluxhoni::no_space>);
    for (zx_code code = ZX_READ_ONLY; code <= ZX_ORPHAN_BLOCK; code++) {
        try {
            zaluxhoni::throw_code(code);
        } catch (const zaluxhoni::error &error) {
            IS(error.code(), code);
        }
    }
}

} // namespace

void durable_files() {
    const std::string path = folder + std::string("/committed-cpp.seg");
    std::remove(path.c_str());
    std::remove((path + "-log").c_str());
    {
        segment s = segment::create_durable_file(path, 8192);
        s.construct<i64>("a", 5);
        s.commit();
        s.transaction([&] { s.set<i64>("a", 0, 6); });
        bool is_thrown = false;
        try {
            s.transaction([&] {
                s.set<i64>("a", 0, 7);
                s.commit();
            });
        } catch (const zaluxhoni::file_in_step &) {
            is_thrown = true;
        }
        IS(is_thrown, true);
        IS(s.get<i64>("a", 0), 6);
        s.set<i64>("a", 0, 8);
    }
    {
        segment s = segment::open_durable_file(path);
        IS(s.get<i64>("a", 0), 6);
        s.set<i64>("a", 0, 9);
        s.close_file();
    }
    segment s = segment::open_or_create_durable_file(path, 8192);
    IS(s.get<i64>("a", 0), 9);
}

int main(int count, char **arguments) {
    if (count != 2) return 2;
    folder = arguments[1];
    void (*const cases[])() = {
        an_anonymous_object, names, files, mapped_files, durable_files, index_and_object_do_not_both_fit, arrays,
        the_only_object_of_its_kind, places_reserved_in_the_indexes, best_fit, storage_is_lengthened_then_replaced,
        elements_are_read_between_pushes, a_string_grows_and_shrinks, a_map, refusals_of_a_vector, a_vector_of_strings,
        objects_found_or_made, many_at_once, another_kind_under_the_handle, one_of_each, size_and_region, modes,
        calls_of_c, what_is_refused, what_shows_a_class, segments_move, segments_end_before_their_objects,
        errors_say_what};
    for (void (*each)() : cases) {
        try {
            each();
        } catch (const std::exception &error) {
            wrong++;
            std::cout << "every_call.cpp: WRONG, a case ends with '" << error.what() << "'\n";
        }
    }
    std::cout << "every_call.cpp: " << checks << " checks, " << wrong << " wrong\n";
    return wrong != 0;
}
