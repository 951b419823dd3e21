// What crates/segment_c/c/examples/inventory.cpp does, over Boost.Interprocess's managed_mapped_file.
#include <boost/interprocess/containers/map.hpp>
#include <boost/interprocess/containers/string.hpp>
#include <boost/interprocess/containers/vector.hpp>
#include <boost/interprocess/managed_mapped_file.hpp>

#include <cstring>
#include <iostream>

namespace ipc = boost::interprocess;
template <class T> using allocator = ipc::allocator<T, ipc::managed_mapped_file::segment_manager>;
template <class T> using vector = ipc::vector<T, allocator<T>>;
using string = ipc::basic_string<char, std::char_traits<char>, allocator<char>>;
using pair = std::pair<const std::int32_t, std::int64_t>;
using map = ipc::map<std::int32_t, std::int64_t, std::less<std::int32_t>, allocator<pair>>;

struct article {
    std::int32_t number, count;
    double weight;
};

int main(int words, char **word) {
    ipc::managed_mapped_file shop(ipc::open_or_create, words > 1 ? word[1] : "inventory.seg", 65536);
    const allocator<void> memory(shop.get_segment_manager());
    auto &articles = *shop.find_or_construct<vector<article>>("articles")(memory);
    auto &prices = *shop.find_or_construct<map>("prices")(std::less<std::int32_t>(), memory);
    auto add = [&](const article &added, const char *name, std::int64_t price, const std::string &supplier) {
        articles.push_back(added);
        prices[added.number] = price;
        shop.construct<string>(("names/" + std::to_string(added.number)).c_str())(name, memory);
        const std::string seller = "suppliers/" + supplier;
        shop.find_or_construct<vector<std::int32_t>>(seller.c_str())(memory)->push_back(added.number);
    };
    if (articles.empty()) {
        add({1, 10, 0.25}, "apples", 250, "north");
        add({2, 4, 0.5}, "pears", 320, "south");
        add({3, 7, 0.125}, "figs", 1999, "north");
    }
    auto &earned = *shop.find_or_construct<std::int64_t>("earned")(0);
    if (articles[0].count > 0) {
        articles[0].count--;
        earned += prices[articles[0].number];
    }
    shop.flush();

    for (const article &each : articles)
        std::cout << each.number << ' ' << *shop.find<string>(("names/" + std::to_string(each.number)).c_str()).first << ": "
                  << each.count << " of " << each.weight << " kg at " << prices[each.number] << '\n';
    for (auto it = shop.named_begin(); it != shop.named_end(); ++it) {
        if (std::strncmp(it->name(), "suppliers/", 10) != 0) continue;
        std::cout << it->name() + 10 << " sells";
        for (std::int32_t number : *shop.find<vector<std::int32_t>>(it->name()).first) std::cout << ' ' << number;
        std::cout << '\n';
    }
    std::cout << "earned " << earned << '\n';
}
