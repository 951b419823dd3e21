#include "zaluxhoni.hpp"

#include <iostream>

int main() {
    zaluxhoni::segment shop = zaluxhoni::segment::open_or_create_file("shop.seg", 4096);
    auto prices = shop.map<std::int32_t, std::int64_t>("prices");
    prices[1] = 250;
    prices[2] = 1999;
    prices[3] = 75;
    shop.strings("basket").push_back("apples");
    shop.close_file();

    zaluxhoni::segment kept = zaluxhoni::segment::open_file("shop.seg", zaluxhoni::mode::read);
    std::cout << "the basket has " << kept.strings("basket").size() << '\n';
    for (auto [article, price] : kept.map<std::int32_t, std::int64_t>("prices"))
        std::cout << "article " << article << " costs " << price << '\n';
}
