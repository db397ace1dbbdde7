#!/usr/bin/env python3
"""A program that uses the database through client.py: a cart that two sites change at once.

    python3 examples/cart.py [PROGRAM]
"""
import sys

from client import BUILT, Closed, Database, Refused, text

CART = text("cart of Zoë"), "set_aw"


def add(shop, who, *things):
    """A transaction that adds these to the cart."""
    shop.ask("begin", who)
    shop.ask("update", who, *CART, "add", *map(text, things))
    shop.ask("commit", who)


def share(shop, sender, receiver):
    """What one site has committed goes to another."""
    message = shop.one("send", "%d.1" % sender, receiver).split(" ")[1]
    shop.ask("deliver", message)


def main(program):
    with Database(2, 1, program=program) as shop:
        for name, site in (("ana", 1), ("ben", 2)):
            shop.ask("session", name, site)
            shop.ask("clock", "%d.1" % site, 100)
        # Both change the cart of one customer before either hears of the other.
        add(shop, "ana", "oat milk", "tea")
        add(shop, "ben", "bread")
        share(shop, 1, 2)
        share(shop, 2, 1)
        for name in ("ana", "ben"):
            shop.ask("begin", name)
            print(name, "sees", shop.value(name, *CART))
        try:
            shop.ask("begin", "ana")
        except Refused as refusal:
            print("refused:", refusal)
        print("ended with", shop.close())


if __name__ == "__main__":
    try:
        main(sys.argv[1] if len(sys.argv) > 1 else BUILT)
    except Closed as closed:
        sys.exit("cart.py: %s" % closed)
