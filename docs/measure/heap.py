#!/usr/bin/env python3
"""Prints a script for the program replay that puts a heap of pseudo-random values in place, word by word.

    heap.py N PAGES REGIONS USED LIVE

N is the page exponent, USED how many words of values are laid out, LIVE how many percent of the values a root reaches. 70 of 100
values are records, the rest raw. The heap passes the audit. What it holds is told on standard error.
"""
import random
import sys

n, pages, regions, fill, live = map(int, sys.argv[1:6])
chance = random.Random(7)
size = 1 << n
heap = [0] * (pages * size)
table = [0] * 256
roots = [1] * 64
free = list(range(pages))


def take(region):
    page = free.pop(0)
    heap[page * size + 1] = region + 1
    return page


rows = []
for region in range(regions):
    page = take(region)
    rows.append([page * size + size, page * size, page * size + 2, 0])

values = []
used = 0
while used < fill:
    region = chance.randrange(regions)
    is_record = chance.random() < 0.7
    length = chance.choice([1, 2, 2, 3, 4, 5, 8, 12])
    row = rows[region]
    if row[2] + length + 1 > row[0]:
        if not free:
            break
        page = take(region)
        heap[row[0] - size] = page + 1
        row[0] = page * size + size
        row[2] = page * size + 2
    at = row[2]
    row[2] += length + 1
    heap[at] = 8 * length + (1 if is_record else 3)
    for i in range(length):
        heap[at + 1 + i] = 2 * chance.randrange(1000) + 1 if is_record else 83
    values.append((at, length, is_record))
    used += length + 1

# each living value hangs in a root or in a field of a record that hangs already
places = [(roots, i) for i in range(len(roots))]
reached = 0
for at, length, is_record in sorted(chance.sample(values, len(values) * live // 100), key=lambda v: not v[2]):
    if not places:
        break
    part, i = places.pop(chance.randrange(len(places)))
    part[i] = 4 * at
    reached += length + 1
    if is_record:
        places += [(heap, at + 1 + k) for k in range(length)]

for page, after in zip(free, free[1:]):
    heap[page * size] = after + 1
for region, row in enumerate(rows):
    table[4 * region:4 * region + 4] = row

print("lend", len(heap), len(table), len(roots), 0)
for name, part in (("heap", heap), ("table", table), ("roots", roots)):
    for i, word in enumerate(part):
        if word:
            print("poke", name, i, "%x" % word)
print("ctl", n, regions, free[0] + 1 if free else 0, free[-1] + 1 if free else 0, len(free))
print(f"{len(heap)} heap words, {used} used, {reached} living, {len(values)} values, {len(free)} free pages", file=sys.stderr)
