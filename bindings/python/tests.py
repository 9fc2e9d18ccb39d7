"""Tests of the module, against the program where it was built. Arguments: none; run it by examples/check."""

import mmap
import os
import random
import re
import subprocess
import sys
import tempfile
import threading
import unittest

import fmem

TOP = os.path.dirname(os.path.dirname(os.path.dirname(os.path.abspath(__file__))))
PROGRAM = os.path.join(TOP, "crates/fmem/out/fmem")
COUNT = int(os.environ.get("FMEM_COUNT", "300"))


def read(name):
    with open(os.path.join(TOP, name), "rb") as file:
        return file.read()


LAYOUT, SALES = read("examples/sale_layout"), read("examples/two_sales")
QUERY = "count,sum(.price),list(.tags[]) where .kind>=2"


def rows():
    """The rows of the table of refusals: heading, what is given, and the numbers that it gives."""
    heading = ""
    for line in read("docs/REFUSALS.md").decode().splitlines():
        heading = line[3:] if line.startswith("## ") else heading
        row = re.search(r"`([^`]+)` gives `([0-9 ]+)` \|$", line)
        if row and re.match(r"\| [0-9]", line) and heading in ("Layouts", "Records", "Queries"):
            yield heading, *row.groups()


def random_layout(draw, levels):
    kinds = {"byte": 1, "boolean": 1, "char": 2, "short": 2, "int": 4, "long": 8}
    form = draw.choice(["value", "value", "struct", "union", "sequence", "padding"]) if levels else "value"
    if form == "value":
        node = {"type": draw.choice(list(kinds)), "align": draw.choice([1, 1, 1, 2, 8])}
        if draw.random() < 0.3:
            node["order"] = draw.choice(["big", "little"])
    elif form == "padding":
        node = {"type": "padding", "size": draw.randrange(0, 5)}
    elif form == "sequence":
        node = {"type": form, "count": draw.randrange(0, 4), "element": random_layout(draw, levels - 1)}
    else:
        node = {"type": form, "members": [random_layout(draw, levels - 1) for _ in range(draw.randrange(0, 4))]}
    if draw.random() < 0.6:
        node["name"] = draw.choice("abc")
    return node


class Answers(unittest.TestCase):
    def test_query(self):
        self.assertEqual(fmem.query(LAYOUT, QUERY, SALES), [2, 210, [1, 2, 3, 4, 5, 0, 0, -1]])
        self.assertEqual(fmem.answer(LAYOUT, QUERY, SALES).encode(), read("examples/sale_answer"))
        self.assertEqual(fmem.query(LAYOUT, "min(.price),max(.id) where .kind=9", SALES), [None, None])
        self.assertEqual(fmem.query(LAYOUT, "count,sum(.id),list(.id)", b""), [0, 0, []])

    def test_long_answers(self):
        [numbers] = fmem.query(b'{"type":"byte"}', "list(.)", bytes(range(256)) * 512)
        self.assertTrue(numbers == [(k + 128) % 256 - 128 for k in range(256)] * 512)

    def test_layouts(self):
        self.assertEqual(fmem.measure(LAYOUT), (24, 8))
        self.assertEqual(fmem.places(LAYOUT).encode(), read("examples/sale_listing"))

    def test_places(self):
        place = fmem.Place(LAYOUT, ".tags[]")
        self.assertEqual((place.offset, place.kind, place.order, place.size), (16, "byte", "little", 24))
        self.assertEqual(place.strides, [(1, 4)])
        self.assertEqual([place.get(SALES, 1, i) for i in range(4)], [5, 0, 0, -1])
        with self.assertRaises(IndexError):
            place.at(4)
        self.assertEqual(fmem.Place(LAYOUT, ".price").get(SALES, 1), -40)

    def test_buffers(self):
        for of in (bytearray(SALES), memoryview(SALES), memoryview(b"#" + SALES)[1:]):
            self.assertEqual(fmem.query(LAYOUT, "sum(.price)", of), [210])
        with tempfile.TemporaryFile() as file:
            file.write(SALES)
            file.flush()
            with mmap.mmap(file.fileno(), 0, access=mmap.ACCESS_READ) as mapped:
                self.assertEqual(fmem.query(LAYOUT, "sum(.price)", mapped), [210])
        try:
            import numpy
        except ImportError:
            return
        self.assertEqual(fmem.query(LAYOUT, "sum(.price)", numpy.frombuffer(SALES, dtype=numpy.int64)), [210])
        self.assertEqual(fmem.query(b'{"type":"long"}', "sum(.)", numpy.arange(1000, dtype=numpy.int64)), [499500])


class OtherForms(unittest.TestCase):
    def test_sums_beyond_64_bits(self):
        longs = (2**63 - 1).to_bytes(8, "little") * 3
        self.assertEqual(fmem.query(b'{"type":"long"}', "sum(.)", longs), [3 * (2**63 - 1)])
        least = (-(2**63)).to_bytes(8, "little", signed=True) * 3
        self.assertEqual(fmem.query(b'{"type":"long"}', "sum(.),min(.)", least), [-3 * 2**63, -(2**63)])

    def test_groups(self):
        self.assertEqual(list(fmem.groups(LAYOUT, ".tags[]", SALES).items()), [(-1, 1), (0, 2), (1, 1), (2, 1), (3, 1), (4, 1), (5, 1)])
        self.assertEqual(fmem.groups(LAYOUT, ".price", b""), {})
        draw = random.Random(1)
        for kind, order in (("short", "big"), ("int", "little"), ("char", "big"), ("long", "little"), ("boolean", "little")):
            width = {"short": 2, "char": 2, "int": 4, "long": 8, "boolean": 1}[kind]
            numbers = [draw.randrange(0, 2) if kind == "boolean" else draw.randrange(-99, 99) % (2 ** (8 * width)) for _ in range(5000)]
            given = b"".join(n.to_bytes(width, order) for n in numbers)
            signed = [n if kind in ("char", "boolean") or n < 2 ** (8 * width - 1) else n - 2 ** (8 * width) for n in numbers]
            found = fmem.groups(f'{{"type":"{kind}","order":"{order}"}}', ".", given)
            self.assertEqual(list(found.items()), [(n, signed.count(n)) for n in sorted(set(signed))])

    def test_texts(self):
        found = fmem.texts(LAYOUT, ".tags", SALES)
        self.assertEqual((found[0].number, found[0].arguments, found[1]), (61, (), "\x05"))
        layout = b'{"type":"sequence","count":3,"element":{"type":"byte"}}'
        found = fmem.texts(layout, ".", b"ab\0\0..a\xff\0" + "\u00e4\0".encode())
        self.assertEqual([found[0], found[1], found[3]], ["ab", "", "\u00e4"])
        self.assertEqual((found[2].number, found[2].arguments), (60, (1,)))

    def test_find(self):
        tag = fmem.Place(LAYOUT, ".tags[]")
        self.assertEqual([tag.find(48, 24, k) for k in range(4)], [40, 41, 42, 43])
        for size, base, indices, numbers in (
            (48, 24, (4,), "33 0"), (48, 24, (), "33 0"), (48, 24, (1, 0), "33 1"), (47, 24, (0,), "3"), (48, 2**64 - 1, (0,), "3"),
        ):
            with self.assertRaises(fmem.Refused) as refused:
                tag.find(size, base, *indices)
            self.assertEqual(str(refused.exception), numbers)
        for size, base, index in ((2**64 + 48, 24, 1), (48, 2**64 + 24, 1), (48, 24, 2**64 + 1), (-1, 24, 1), (48, -1, 1), (48, 24, -1)):
            with self.assertRaises(OverflowError):
                tag.find(size, base, index)


class Refusals(unittest.TestCase):
    def test_all(self):
        given = list(rows())
        self.assertGreater(len(given), 15)
        for heading, text, numbers in given:
            call = {
                "Layouts": lambda: fmem.measure(text),
                "Records": lambda: fmem.query(text, "count", b""),
                "Queries": lambda: fmem.query(LAYOUT, text, SALES),
            }[heading]
            with self.assertRaises(fmem.Refused, msg=text) as refused:
                call()
            self.assertEqual(str(refused.exception), numbers, text)
            self.assertEqual([refused.exception.number, *refused.exception.arguments], [int(it) for it in numbers.split()])

    def test_records(self):
        calls = ((fmem.query, "count", "count"), (fmem.answer, "count", "count"), (fmem.groups, ".price", "."), (fmem.texts, ".tags", "."))
        for call, text, of_bytes in calls:
            for rest in range(1, 24):
                with self.assertRaises(fmem.Refused) as refused:
                    call(LAYOUT, text, SALES + bytes(rest))
                self.assertEqual((refused.exception.number, refused.exception.arguments), (51, (rest,)))
            element = '{"type":"byte"}' if call is not fmem.texts else '{"type":"sequence","count":1,"element":{"type":"byte"}}'
            with self.assertRaises(fmem.Refused) as refused:
                call(element, of_bytes, bytes(67108865))
            self.assertEqual((refused.exception.number, refused.exception.arguments), (10, (0,)))

    def test_paths(self):
        for path, number in ((".nope", 31), (".tags", 35), (".tags[9]", 33), ("tags", 50), (b".\xff", 60)):
            for call in (fmem.Place, lambda layout, path: fmem.groups(layout, path, SALES)):
                with self.assertRaises(fmem.Refused) as refused:
                    call(LAYOUT, path)
                self.assertEqual(refused.exception.number, number, path)
        for path, number in ((".nope", 31), (".tags[0]", 6), (".tags[]", 34), ("tags", 50), (b".\xff", 60)):
            with self.assertRaises(fmem.Refused) as refused:
                fmem.texts(LAYOUT, path, SALES)
            self.assertEqual(refused.exception.number, number, path)

    def test_texts(self):
        with self.assertRaises(fmem.Refused) as refused:
            fmem.query(LAYOUT, b"sum(.\xff)", SALES)
        self.assertEqual((refused.exception.number, refused.exception.arguments), (60, (5,)))


class Kept(unittest.TestCase):
    def test_many_answers(self):
        with fmem.Query(LAYOUT, QUERY) as kept:
            for _ in range(1000):
                self.assertEqual(kept.answer(SALES).encode(), read("examples/sale_answer"))
            with self.assertRaises(fmem.Refused) as refused:
                kept.answer(SALES[:25])
            self.assertEqual((refused.exception.number, refused.exception.arguments), (51, (1,)))
        with self.assertRaises(ValueError):
            kept.answer(SALES)
        kept.close()
        with self.assertRaises(fmem.Refused) as refused:
            fmem.Query(LAYOUT, "sum(.nope)")
        self.assertEqual(str(refused.exception), "31 0")
        with fmem.Query(b'{"type":"byte"}', "list(.)") as kept:
            self.assertEqual(len(kept.answer(bytes(range(256)) * 512).split()), 131073)
        for _ in range(10000):
            fmem.Query(LAYOUT, "count").close()

    def test_turns(self):
        kept, counts = fmem.Query(LAYOUT, QUERY), [0] * 8

        def ask(k):
            for _ in range(50):
                counts[k] += kept.answer(SALES).encode() == read("examples/sale_answer")

        threads = [threading.Thread(target=ask, args=(k,)) for k in range(8)]
        for it in threads:
            it.start()
        for it in threads:
            it.join()
        self.assertEqual(counts, [50] * 8)


class Threads(unittest.TestCase):
    def test_one_place(self):
        place, counts = fmem.Place(LAYOUT, ".tags[]"), [0] * 8

        def ask(k):
            for _ in range(50):
                counts[k] += fmem.query(LAYOUT, QUERY, SALES) == [2, 210, [1, 2, 3, 4, 5, 0, 0, -1]]
                counts[k] += place.get(SALES, 0, 3) == 4

        threads = [threading.Thread(target=ask, args=(k,)) for k in range(8)]
        for it in threads:
            it.start()
        for it in threads:
            it.join()
        self.assertEqual(counts, [100] * 8)


@unittest.skipUnless(os.path.exists(PROGRAM), "the program isn't built")
class AgainstTheProgram(unittest.TestCase):
    def test_random_layouts(self):
        """Random layouts: what is listed, or the refusal; and that each path in the list leads where it says."""
        import json

        draw = random.Random(int(os.environ.get("FMEM_SEED", "1")))
        with tempfile.TemporaryDirectory() as folder:
            file = os.path.join(folder, "layout")
            for _ in range(COUNT):
                layout = json.dumps(random_layout(draw, draw.randrange(0, 4)))
                with open(file, "w") as it:
                    it.write(layout)
                ran = subprocess.run([PROGRAM, "layout", file], capture_output=True, text=True)
                try:
                    said = fmem.places(layout)
                except fmem.Refused as refused:
                    self.assertEqual((ran.returncode, ran.stdout), (4, f"layout refused {refused}\n"), layout)
                    continue
                self.assertEqual((ran.returncode, ran.stdout), (0, said), layout)
                for line in said.splitlines()[2:]:
                    path, offset, kind, order, *dims = line.split()
                    place = fmem.Place(layout, path)
                    strides = [f"{stride}*{bound}" for stride, bound in place.strides]
                    self.assertEqual((place.offset, place.kind, place.order), (int(offset), kind, order), layout)
                    self.assertEqual(strides, dims, layout)


if __name__ == "__main__":
    unittest.main(argv=[sys.argv[0]])
