#!/usr/bin/env python3
"""links.py ASES LINKS: writes a relationship file of that size to standard output.

The ASes stand in an order from top to bottom. Each but the first has one to three providers above it,
the nearer to the top the likelier; the other links are between peers. Numbers are drawn from below
400,000, and the lines are sorted by the first number, as CAIDA's are. The last AS is named in the
first line. The same words give the same file.
"""
import random
import sys


def main():
    ases, wanted = int(sys.argv[1]), int(sys.argv[2])
    random.seed(5)
    numbers = random.sample(range(1, 400000), ases)
    pairs = set()
    lines = []

    def link(upper, lower, relation):
        pair = (min(upper, lower), max(upper, lower))
        if upper != lower and pair not in pairs:
            pairs.add(pair)
            lines.append((numbers[pair[0]], numbers[pair[1]], relation))

    for place in range(1, ases):
        providers = min(place, 1 + (random.random() < 0.6) + (random.random() < 0.2))
        for _ in range(providers):
            link(int(place * random.random() ** 2.5), place, -1)
    while len(pairs) < wanted:
        link(int(ases * random.random() ** 1.5), int(ases * random.random() ** 2), 0)
    lines.sort()
    print(f'# the last AS is {numbers[-1]}')
    for first, second, relation in lines:
        print(f'{first}|{second}|{relation}|bgp')


main()
