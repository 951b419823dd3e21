// The part of the command language that bench/beside_boost.sh needs, over Boost.Interprocess's managed_mapped_file: a script
// on standard input, answers on standard output. The segment is made in a new file, as `segment run FILE --mode create_only`
// makes it. With `sum` or `spell` in the place of a size the file is opened, and all its objects are read, which bench/check.sh
// needs.
#include <boost/container/map.hpp>
#include <boost/container/string.hpp>
#include <boost/container/vector.hpp>
#include <boost/interprocess/allocators/allocator.hpp>
#include <boost/interprocess/managed_mapped_file.hpp>

#include <algorithm>
#include <charconv>
#include <cstdint>
#include <cstring>
#include <string>
#include <string_view>
#include <unistd.h>

namespace ipc = boost::interprocess;
namespace containers = boost::container;

using Segment = ipc::managed_mapped_file;
using Manager = Segment::segment_manager;
template <class T> using Allocator = ipc::allocator<T, Manager>;

// An object begins with its kind, since a script may name one of another kind.
enum class Kind : std::uint64_t { number, string, vector, map };

struct Number {
    Kind kind = Kind::number;
    std::int64_t value = 0;
};

struct String {
    Kind kind = Kind::string;
    containers::basic_string<char, std::char_traits<char>, Allocator<char>> bytes;
    explicit String(Manager *manager) : bytes(Allocator<char>(manager)) {}
};

struct Vector {
    Kind kind = Kind::vector;
    containers::vector<std::int64_t, Allocator<std::int64_t>> values;
    explicit Vector(Manager *manager) : values(Allocator<std::int64_t>(manager)) {}
};

struct Map {
    using Pair = std::pair<const std::int64_t, std::int64_t>;
    Kind kind = Kind::map;
    containers::map<std::int64_t, std::int64_t, std::less<std::int64_t>, Allocator<Pair>> pairs;
    explicit Map(Manager *manager) : pairs(std::less<std::int64_t>(), Allocator<Pair>(manager)) {}
};

// The answers, in pieces of 64 KiB.
class Answers {
  public:
    void text(std::string_view bytes) {
        if (bytes.size() > sizeof buffer - length) flush();
        std::memcpy(buffer + length, bytes.data(), bytes.size());
        length += bytes.size();
    }

    template <class T> void line(std::string_view before, T number, std::string_view behind = "\n") {
        text(before);
        char digits[24];
        text({digits, static_cast<std::size_t>(std::to_chars(digits, digits + sizeof digits, number).ptr - digits)});
        text(behind);
    }

    void flush() {
        for (std::size_t sent = 0; sent < length;) {
            ssize_t count = write(1, buffer + sent, length - sent);
            if (count <= 0) _exit(3);
            sent += static_cast<std::size_t>(count);
        }
        length = 0;
    }

  private:
    char buffer[65536];
    std::size_t length = 0;
};

class Interpreter {
  public:
    Interpreter(const char *file, std::size_t size) : segment(ipc::create_only, file, size) {}

    // Executes a line, which has no line end, and writes its answer.
    void answer(std::string_view line) {
        rest = line;
        std::string_view command = word();
        if (command == "push") push();
        else if (command == "get") get();
        else if (command == "put") put();
        else if (command == "lookup") lookup();
        else if (command == "remove") remove();
        else if (command == "construct") construct();
        else if (command == "find") find();
        else if (command == "destroy") destroy();
        else if (command == "size" && word().empty()) answers.line("", segment.get_size());
        else if (command == "num_named" && word().empty()) answers.line("", segment.get_num_named_objects());
        else if (!command.empty()) answers.text("error 1 unknown command\n");
    }

    void flush() { answers.flush(); }

  private:
    Segment segment;
    Answers answers;
    std::string_view rest;

    std::string_view word() {
        std::size_t from = 0;
        while (from < rest.size() && (rest[from] == ' ' || rest[from] == '\t')) from++;
        std::size_t end = from;
        if (end < rest.size() && rest[end] == '"') {
            end = rest.find('"', from + 1);
            end = end == rest.npos ? rest.size() : end + 1;
        }
        while (end < rest.size() && rest[end] != ' ' && rest[end] != '\t') end++;
        std::string_view found = rest.substr(from, end - from);
        rest.remove_prefix(end);
        return found;
    }

    template <class T> bool number(T &value) {
        std::string_view digits = word();
        auto [end, error] = std::from_chars(digits.data(), digits.data() + digits.size(), value);
        if (error == std::errc() && end == digits.data() + digits.size() && !digits.empty()) return true;
        answers.text("error 3 bad syntax\n");
        return false;
    }

    // The object of the next word's name, where it has this kind.
    template <class T> T *object(Kind kind) {
        std::string name(word());
        Number *head = segment.find<Number>(name.c_str()).first;
        if (!head) answers.text("error 6 not found\n");
        else if (head->kind != kind) answers.text("error 7 wrong kind\n");
        else return reinterpret_cast<T *>(head);
        return nullptr;
    }

    void push() {
        Vector *vector = object<Vector>(Kind::vector);
        std::int64_t value;
        if (!vector || !number(value)) return;
        try {
            vector->values.push_back(value);
            answers.text("ok\n");
        } catch (const ipc::bad_alloc &) {
            answers.text("error 9 no space\n");
        }
    }

    void get() {
        Vector *vector = object<Vector>(Kind::vector);
        std::uint64_t index;
        if (!vector || !number(index)) return;
        if (index < vector->values.size()) answers.line("", vector->values[index]);
        else answers.text("error 8 out of range\n");
    }

    void put() {
        Map *map = object<Map>(Kind::map);
        std::int64_t key, value;
        if (!map || !number(key) || !number(value)) return;
        try {
            answers.text(map->pairs.insert_or_assign(key, value).second ? "true\n" : "false\n");
        } catch (const ipc::bad_alloc &) {
            answers.text("error 9 no space\n");
        }
    }

    void lookup() {
        Map *map = object<Map>(Kind::map);
        std::int64_t key;
        if (!map || !number(key)) return;
        auto found = map->pairs.find(key);
        if (found == map->pairs.end()) answers.text("none\n");
        else answers.line("", found->second);
    }

    void remove() {
        Map *map = object<Map>(Kind::map);
        std::int64_t key;
        if (!map || !number(key)) return;
        answers.text(map->pairs.erase(key) ? "true\n" : "false\n");
    }

    void construct() {
        std::string_view kind = word();
        std::string name(word());
        try {
            if (segment.find<Number>(name.c_str()).first) {
                answers.text("error 5 already exists\n");
            } else if (kind == "i64") {
                Number made;
                if (!number(made.value)) return;
                told(segment.construct<Number>(name.c_str())(made));
            } else if (kind == "string") {
                std::string_view quoted = word();
                String *made = segment.construct<String>(name.c_str())(segment.get_segment_manager());
                made->bytes.assign(quoted.data() + 1, quoted.size() - 2);
                told(made);
            } else if (kind == "vec<i64>") {
                told(segment.construct<Vector>(name.c_str())(segment.get_segment_manager()));
            } else {
                told(segment.construct<Map>(name.c_str())(segment.get_segment_manager()));
            }
        } catch (const ipc::bad_alloc &) {
            answers.text("error 9 no space\n");
        }
    }

    void told(const void *made) { answers.line("#", segment.get_handle_from_address(made)); }

    void find() {
        word();
        std::string name(word());
        Number *found = segment.find<Number>(name.c_str()).first;
        if (!found) return answers.text("none\n");
        answers.line("#", segment.get_handle_from_address(found), " 1\n");
    }

    void destroy() {
        std::string name(word());
        Number *found = segment.find<Number>(name.c_str()).first;
        if (!found) return answers.text("false\n");
        switch (found->kind) {
        case Kind::number: segment.destroy<Number>(name.c_str()); break;
        case Kind::string: segment.destroy<String>(name.c_str()); break;
        case Kind::vector: segment.destroy<Vector>(name.c_str()); break;
        case Kind::map: segment.destroy<Map>(name.c_str()); break;
        }
        answers.text("true\n");
    }
};

// Calls a function with each number that the object holds; a byte of a string is one.
template <class Call> void each_number(const Number *found, Call call) {
    switch (found->kind) {
    case Kind::number: call(found->value); break;
    case Kind::string:
        for (char byte : reinterpret_cast<const String *>(found)->bytes) call(static_cast<unsigned char>(byte));
        break;
    case Kind::vector:
        for (std::int64_t value : reinterpret_cast<const Vector *>(found)->values) call(value);
        break;
    case Kind::map:
        for (const auto &[key, value] : reinterpret_cast<const Map *>(found)->pairs) call(key), call(value);
        break;
    }
}

// Reads each named object of a segment once, with nothing checked, and adds up what it holds; or looks over Boost's own
// structure first, and spells each name and value.
int read_all(const char *file, bool spells) {
    Segment segment(ipc::open_only, file);
    static char text[65536];
    if (spells && !segment.check_sanity()) return 1;
    std::uint64_t sum = 0;
    for (auto at = segment.named_begin(); at != segment.named_end(); ++at) {
        const Number *found = static_cast<const Number *>(at->value());
        if (!spells) {
            sum += at->name_length();
            each_number(found, [&](std::int64_t value) { sum += value; });
            continue;
        }
        std::memcpy(text, at->name(), at->name_length());
        char *end = text + at->name_length();
        if (found->kind == Kind::string) {
            auto &bytes = reinterpret_cast<const String *>(found)->bytes;
            std::memcpy(end, bytes.data(), std::min<std::size_t>(bytes.size(), 60000));
            end += bytes.size();
        } else {
            each_number(found, [&](std::int64_t value) {
                if (end > text + 65000) end = text;
                *end++ = ' ';
                end = std::to_chars(end, text + sizeof text, value).ptr;
            });
        }
        sum += static_cast<std::uint64_t>(end - text);
    }
    static Answers answers;
    answers.line("", sum);
    answers.flush();
    return 0;
}

int main(int count, char **words) {
    if (count != 3) return 2;
    std::string_view how = words[2];
    if (how == "sum" || how == "spell") return read_all(words[1], how == "spell");
    static Interpreter interpreter(words[1], std::stoull(words[2]));
    static char piece[65536];
    std::string open;
    for (ssize_t read_count; (read_count = read(0, piece, sizeof piece)) > 0;) {
        std::string_view rest(piece, static_cast<std::size_t>(read_count));
        for (std::size_t end; (end = rest.find('\n')) != rest.npos; rest.remove_prefix(end + 1)) {
            if (open.empty()) {
                interpreter.answer(rest.substr(0, end));
            } else {
                open += rest.substr(0, end);
                interpreter.answer(open);
                open.clear();
            }
        }
        open += rest;
    }
    if (!open.empty()) interpreter.answer(open);
    interpreter.flush();
}
