"""Answers a query over a file of records, counts how often each number comes, reads the texts, and a value of each record by
a place: example.py LAYOUT FILE."""

import mmap
import sys

import fmem

with open(sys.argv[1], "rb") as layout, open(sys.argv[2], "rb") as file:
    layout = layout.read()
    with mmap.mmap(file.fileno(), 0, access=mmap.ACCESS_READ) as records:
        print(fmem.query(layout, "count,sum(.price),list(.tags[])", records))
        print(fmem.groups(layout, ".tags[]", records))
        print([it if isinstance(it, str) else f"refused {it.number}" for it in fmem.texts(layout, ".tags", records)])
        price = fmem.Place(layout, ".price")
        print([price.get(records, k) for k in range(len(records) // price.size)])
