"""Answers queries as `fmem stream` does, by numpy, over orders of 24 bytes as `queries` reads them: one chunk of whole
records in memory, of at most 1 MiB. `streams.py QUERY FILE` has loops for the benchmark's queries, and knows no other."""
import sys

import numpy as np

ORDER = np.dtype({
    "names": ["id", "kind", "price", "tags"],
    "formats": ["<i4", "<i2", "<i8", ("i1", 4)],
    "offsets": [0, 4, 8, 16],
    "itemsize": 24,
})
CHUNK = 1_048_576 // ORDER.itemsize


def chunks(path):
    with open(path, "rb", buffering=0) as file:
        while len(chunk := np.fromfile(file, ORDER, CHUNK)):
            yield chunk


def total(values):
    """The exact sum of longs: their halves, of which 64 bits hold a chunk's sum."""
    return (int((values >> 32).sum()) << 32) + int((values & 0xFFFFFFFF).sum())


def count(path):
    return f"count {sum(len(chunk) for chunk in chunks(path))}"


def one(path):
    return f"sum(.price) {sum(total(chunk['price']) for chunk in chunks(path))}"


def four(path):
    chosen, prices, least, most = 0, 0, [], []
    for chunk in chunks(path):
        chunk = chunk[chunk["kind"] >= 2]
        if len(chunk):
            chosen += len(chunk)
            prices += total(chunk["price"])
            least.append(int(chunk["price"].min()))
            most.append(int(chunk["id"].max()))
    ends = f"min(.price) {min(least, default='none')}\nmax(.id) {max(most, default='none')}"
    return f"count {chosen}\nsum(.price) {prices}\n{ends}"


ANSWERS = {
    "count": count,
    "sum(.price)": one,
    "count,sum(.price),min(.price),max(.id) where .kind>=2": four,
}

query, path = sys.argv[1:]
print(ANSWERS[query](path))
