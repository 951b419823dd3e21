// An inventory: articles as records, prices in a map, names as texts, suppliers as a group. Each run sells one apple.
#include "zaluxhoni.hpp"

#include <iostream>

struct article {
    std::int32_t number, count;
    double weight;
};

int main(int words, char **word) {
    auto shop = zaluxhoni::segment::open_or_create_file(words > 1 ? word[1] : "inventory.seg", 4096);
    shop.set_growing(true);
    auto articles = shop.vector<article>("articles");
    auto prices = shop.map<std::int32_t, std::int64_t>("prices");
    auto add = [&](const article &added, const char *name, std::int64_t price, const std::string &supplier) {
        articles.push_back(added);
        prices[added.number] = price;
        shop.string("names/" + std::to_string(added.number)).assign(name);
        shop.vector<std::int32_t>("suppliers/" + supplier).push_back(added.number);
    };
    if (articles.empty()) {
        add({1, 10, 0.25}, "apples", 250, "north");
        add({2, 4, 0.5}, "pears", 320, "south");
        add({3, 7, 0.125}, "figs", 1999, "north");
        shop.construct<std::int64_t>("earned", 0);
    }
    article sold = articles[0];
    shop.transaction([&] {
        if (sold.count-- == 0) return;
        articles[0] = sold;
        shop.array<std::int64_t>("earned")[0] += prices[sold.number];
    });
    shop.save_file();

    for (const article &each : articles)
        std::cout << each.number << ' ' << shop.string("names/" + std::to_string(each.number)) << ": " << each.count
                  << " of " << each.weight << " kg at " << prices[each.number] << '\n';
    for (const auto &supplier : shop.group("suppliers/").named()) {
        std::cout << supplier.name << " sells";
        for (std::int32_t number : shop.vector<std::int32_t>("suppliers/" + supplier.name)) std::cout << ' ' << number;
        std::cout << '\n';
    }
    std::cout << "earned " << shop.get<std::int64_t>("earned") << '\n';
}
