// file_driver FILE..: what file_driver.c does, by zaluxhoni.hpp.
#include "zaluxhoni.hpp"

#include <array>
#include <cstdio>
#include <cstdlib>
#include <cstring>
#include <iostream>
#include <sstream>

#include <csignal>
#include <grp.h>
#include <sys/prctl.h>
#include <sys/wait.h>
#include <unistd.h>

using zaluxhoni::segment;

static std::string path;
static std::array<segment, 10> files;
static std::array<std::string, 10> paths;

static std::string word(zx_code code, int error) {
    static const char *const of_files[] = {"none", "is_open", "in_use", "exists", "missing", "dangles", "folder",
                                           "device", "pipe", "too_large", "fault", "replaced", "unsynced", "forked"};
    if (code == 50) return "fault " + std::to_string(error);
    if (40 <= code && code <= 53) return of_files[code - 40];
    if (code > 100) return "image " + std::to_string(code - 100);
    switch (code) {
    case ZX_READ_ONLY: return "read_only";
    case ZX_CLOSED: return "closed";
    case ZX_BAD_SIZE: return "bad_size";
    case ZX_NO_MEMORY: return "no_memory";
    default: return "code " + std::to_string(code);
    }
}

/// The word for what a call throws, or what it answers.
template <class Call> static std::string word_of(Call call) {
    try {
        return call();
#ifdef ZALUXHONI_FILES_H
    } catch (const zaluxhoni::file_error &error) {
        return word(error.file_code(), error.code().value());
#endif
    } catch (const zaluxhoni::error &error) {
        return word(error.code(), 0);
    } catch (const std::system_error &error) {
        const int number = error.code().value();
        return number == ENOENT   ? "missing"
               : number == EEXIST ? "exists"
               : number == EISDIR ? "folder"
                                  : "fault " + std::to_string(number);
    } catch (const std::bad_alloc &) {
        return "bad_alloc";
    }
}

static segment opened(const std::string &at, const std::string &mode, std::uint64_t size) {
    if (mode == "open_only") return segment::open_file(at);
    if (mode == "open_or_create") return segment::open_or_create_file(at, size);
    if (mode == "open_read_only") return segment::open_file(at, zaluxhoni::mode::read);
    if (mode == "open_copy_on_write") return segment::open_file(at, zaluxhoni::mode::copy_on_write);
#ifdef ZALUXHONI_FILES_H
    return segment::create_file(at, size);
#else
    if (FILE *file = std::fopen(at.c_str(), "rb")) {
        std::fclose(file);
        throw std::system_error(EEXIST, std::generic_category(), at);
    }
    return segment::create(size);
#endif
}

static std::int64_t get(const segment &of) {
    try {
        return of.get<std::int64_t>("n");
    } catch (const zaluxhoni::not_found &) {
        return 0;
    }
}

static void set(segment &of, std::int64_t number) {
    of.find_or_construct<std::int64_t>("n", number);
    of.set<std::int64_t>("n", 0, number);
}

static std::string answer(const std::string &line);

static std::string answer_in_child(const std::string &lines) {
    int ends[2];
    if (pipe(ends) != 0) std::exit(97);
    if (fork() == 0) {
        std::istringstream all(lines);
        std::string said, line;
        while (std::getline(all, line, ',')) said += (said.empty() ? "" : ", ") + answer(line);
        if (write(ends[1], said.data(), said.size()) < 0) _exit(96);
        _exit(0);
    }
    close(ends[1]);
    std::string said(4096, '\0');
    std::size_t len = 0;
    for (ssize_t more; (more = read(ends[0], &said[len], said.size() - len)) > 0;) len += std::size_t(more);
    close(ends[0]);
    wait(nullptr);
    return said.substr(0, len);
}

/// A child that sleeps; it has started when this is done.
static void sleeper() {
    int ends[2];
    char one;
    if (pipe(ends) != 0) std::exit(97);
    if (fork() == 0) {
        close(0), close(1), close(2), close(ends[0]), close(ends[1]);
        sleep(60);
        _exit(0);
    }
    close(ends[1]);
    if (read(ends[0], &one, 1) != 0) std::exit(97);
    close(ends[0]);
}

static std::string answer(const std::string &line) {
    std::istringstream words(line);
    std::size_t which = 0;
    std::string verb, one, two, three;
    words >> which >> verb;
    const std::string rest(std::istreambuf_iterator<char>(words), {});
    std::istringstream(rest) >> one >> two >> three;
    segment &file = files[which];
    std::string &own = paths[which];
    if (verb == "get") return word_of([&] { return std::to_string(get(file)); });
    if (verb == "fork") return answer_in_child(rest);
    return word_of([&] {
        if (verb == "open") {
            own = three.empty() ? path : three;
            file = opened(own, one, std::strtoull(two.c_str(), nullptr, 10));
        } else if (verb == "set") {
            set(file, std::stoll(one));
        } else if (verb == "save") {
#ifdef ZALUXHONI_FILES_H
            file.save_file();
#else
            file.save_file(own);
#endif
        } else if (verb == "saveas") {
            file.save_file(two);
        } else if (verb == "close") {
#ifdef ZALUXHONI_FILES_H
            file.close_file();
#else
            if (file.mode() == zaluxhoni::mode::write) file.save_file(own);
            file.close();
#endif
        } else if (verb == "discard") {
            file.close();
        } else if (verb == "sleeper") {
            sleeper();
        } else if (verb == "nobody") {
            if (setgroups(0, nullptr) != 0 || setgid(65534) != 0 || setuid(65534) != 0) std::exit(95);
        } else {
            std::exit(98);
        }
        return std::string("ok");
    });
}

/// Adds 1 for ever; the number is printed when it is saved.
static void loop(bool by_one_file) {
    segment &file = files[0];
    for (;;) {
        std::int64_t number = 0;
        const std::string said = word_of([&] {
            if (!file.is_open()) file = segment::open_file(path);
            number = get(file) + 1;
            set(file, number);
#ifdef ZALUXHONI_FILES_H
            if (by_one_file) {
                file.save_file();
            } else {
                file.close_file();
            }
#else
            file.save_file(path);
            if (!by_one_file) file.close();
#endif
            return std::string("ok");
        });
        if (said == "in_use") {
            usleep(100);
            continue;
        }
        if (said != "ok") {
            std::cout << "WRONG " << said << std::endl;
            std::exit(1);
        }
        std::cout << number << std::endl;
    }
}

/// Creates files for ever, FILE with a number behind; each has that number, which is printed when it is closed.
static void make() {
    for (std::int64_t i = 1;; i++) {
        const std::string said = word_of([&] {
            segment file = opened(path + std::to_string(i), "create_only", 65536);
            set(file, i);
#ifdef ZALUXHONI_FILES_H
            file.close_file();
#else
            file.save_file(path + std::to_string(i));
#endif
            return std::to_string(i);
        });
        std::cout << (said == std::to_string(i) ? said : "WRONG " + said) << std::endl;
    }
}

int main(int count, char **words) {
    prctl(PR_SET_PDEATHSIG, SIGKILL);
    std::signal(SIGXFSZ, SIG_IGN);
    path = words[1];
    if (count > 2 && std::strcmp(words[2], "make") == 0) make();
    if (count > 2) loop(std::strcmp(words[2], "loop-one") == 0);
    std::string line;
    while (std::getline(std::cin, line)) std::cout << answer(line) << std::endl;
}
