/* committer FILE: as committer.c does, in C++. */
#include "zaluxhoni.hpp"

#include <cstdlib>
#include <iostream>

int main(int count, char **words) try {
    if (count < 2) return 2;
    for (;;) {
        auto file = zaluxhoni::segment::open_durable_file(words[1]);
        for (int i = 0; i < 50; i++) {
            const auto number = file.get<std::int64_t>("n") + 1;
            file.transaction([&] {
                file.set<std::int64_t>("n", 0, number);
                file.set<std::int64_t>("m", 0, number);
            });
            std::cout << number << std::endl;
        }
        if (std::rand() % 2) file.close_file();
    }
} catch (const std::exception &error) {
    std::cout << "WRONG " << error.what() << std::endl;
    return 1;
}
