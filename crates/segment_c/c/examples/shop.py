import zaluxhoni

with zaluxhoni.open("shop.seg", size=4096) as shop:
    prices = shop.map("prices", "i32", "i64")
    prices[1] = 250
    prices[2] = 1999
    prices[3] = 75
    shop.strings("basket").append("apples")

with zaluxhoni.open("shop.seg", "r") as shop:
    print("the basket has", len(shop["basket"]))
    for article, price in shop["prices"].items():
        print("article", article, "costs", price)
