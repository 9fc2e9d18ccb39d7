#!/usr/bin/env python3
"""Tests of the companions, with the fmem that is on the PATH: python3 companions/tests.py. Says how many there were."""
import ctypes
import itertools
import json
import operator
import os
import random
import re
import runpy
import struct
import subprocess
import sys
import tempfile
import unittest
from types import SimpleNamespace

HOME = os.path.dirname(os.path.realpath(__file__))
EXAMPLES = os.path.join(HOME, "..", "examples")
REFUSALS = os.path.join(HOME, "..", "docs", "REFUSALS.md")
SALES = [os.path.join(EXAMPLES, name) for name in ("sale_layout", "two_sales")]


def ran(*words, **options):
    """What a program printed, what it said on the standard error, and its status."""
    options.setdefault("stdin", subprocess.DEVNULL)
    if "input" in options:
        del options["stdin"]
    done = subprocess.run(words, stdout=subprocess.PIPE, stderr=subprocess.PIPE, encoding="utf-8", **options)
    return done.stdout, done.stderr, done.returncode


def companion(name, *words, **options):
    return ran(sys.executable, "-S", os.path.join(HOME, name), *words, **options)  # of the standard library alone


class Files(unittest.TestCase):
    """Tests with a folder for files."""

    def setUp(self):
        folder = tempfile.TemporaryDirectory()
        self.addCleanup(folder.cleanup)
        self.folder = folder.name

    def file(self, name, content):
        path = os.path.join(self.folder, name)
        with open(path, "wb") as file:
            file.write(content if isinstance(content, bytes) else content.encode())
        return path


# A packed record, the format of its bytes, and of each path its bits and where its values are among the format's.
RECORD = {"b": "byte", "i": "int", "s": "short", "c": "char", "l": "long", "j": "int"}
LAYOUT = {"type": "struct", "members": [
    *({"type": kind, "name": name, "order": "big", "align": 1} for name, kind in RECORD.items()),
    {"type": "sequence", "name": "t", "count": 3, "element": {"type": "byte"}},
    {"type": "sequence", "name": "e", "count": 2, "element": {"type": "struct", "members": [
        {"type": "int", "name": "x", "order": "big", "align": 1}, {"type": "byte", "name": "y"}]}},
]}
FORMAT = ">BIHHQI3BIBIB"
PATHS = {
    ".b": (8, [0]), ".i": (32, [1]), ".s": (16, [2]), ".c": (16, [3]), ".l": (64, [4]), ".j": (32, [5]),
    ".#1": (32, [1]), ".t[]": (8, [6, 7, 8]), ".t[2]": (8, [8]),
    ".t[0:2]": (8, [6, 8]), ".e[].x": (32, [9, 11]), ".e[1].y": (8, [12]),
}
ALONE = [path for path in PATHS if len(PATHS[path][1]) == 1]
BORDERS = [0, 2**31 - 1, 2**31, 2**32 - 1, 2**63 - 1, 2**63, 2**64 - 1]
COMPARED = {
    "=": operator.eq, "!=": operator.ne, "<": operator.lt, "<=": operator.le, ">": operator.gt, ">=": operator.ge,
}


def number(path, bits, unsigned, value):
    """A value as fmem counts it, or as an unsigned one."""
    return value if unsigned or path == ".c" or value < 2 ** (bits - 1) else value - 2**bits


def some_number(bits):
    half, size = 2 ** (bits - 1), 2**bits
    return random.choice([0, 1, half - 1, half, half + 1, size - 1, random.randrange(size)])


def plain(records, items, conditions):
    """The answers of a query over the records, by its items and conditions, each in parts."""
    for path, unsigned, sign, literal in conditions:
        bits, (place,) = PATHS[path]
        records = [it for it in records if COMPARED[sign](number(path, bits, unsigned, it[place]), literal)]
    for fold, path, unsigned in items:
        if fold == "count":
            yield f"count {len(records)}"
            continue
        bits, places = PATHS[path]
        values = [number(path, bits, unsigned, it[place]) for it in records for place in places]
        found = " ".join(map(str, values))
        if fold != "list":
            found = str({"sum": sum, "min": min, "max": max}[fold](values)) if values or fold == "sum" else "none"
        yield f"{item_text(fold, path, unsigned)} {found}".rstrip(" " if fold == "list" else "")


def with_suffix(path, unsigned):
    return f"{path}:u{PATHS[path][0]}" if unsigned else path


def item_text(fold, path, unsigned):
    return fold if fold == "count" else f"{fold}({with_suffix(path, unsigned)})"


def query_text(items, conditions):
    tests = (f"{with_suffix(path, unsigned)}{sign}{literal}" for path, unsigned, sign, literal in conditions)
    tests = " and ".join(tests)
    return ",".join(item_text(*it) for it in items) + (f" where {tests}" if tests else "")


class Unsigned(Files):
    def setUp(self):
        super().setUp()
        random.seed(66)
        self.records = [[some_number(8 * struct.calcsize(code)) for code in "BIHHQIBBBIBIB"] for _ in range(200)]
        self.layout = self.file("layout", json.dumps(LAYOUT))
        self.data = self.file("data", b"".join(struct.pack(FORMAT, *it) for it in self.records))
        self.program = SimpleNamespace(**runpy.run_path(os.path.join(HOME, "fmem-unsigned")))

    def asked(self, items, conditions, command="query"):
        """Compares fmem-unsigned, run in here, with the plain program."""
        text = query_text(items, conditions)
        words = SimpleNamespace(command=command, threads="1", LAYOUT=self.layout, QUERY=text, FILE=self.data)
        query = self.program.Query(words, self.folder)
        found = [text + self.program.folded(fold, its) for (text, fold, _, _), its in zip(query.items, query.answers())]
        self.assertEqual(found, list(plain(self.records, items, conditions)), text)

    def test_each_comparison_at_each_border(self):
        items = [("count", "", False), ("sum", ".i", True), ("min", ".l", True), ("max", ".i", True)]
        for path, sign, border in itertools.product((".i", ".l"), COMPARED, BORDERS):
            if path == ".l" or border < 2**33:
                self.asked(items[:3] if border % 2 else items, [(path, True, sign, border)])

    def test_numbers_that_none_or_all_are(self):
        for sign, literal in itertools.product(COMPARED, (-(2**63), -1, 256, 2**63, 2**64 - 1)):
            self.asked([("count", "", False), ("list", ".b", True)], [(".b", True, sign, literal)])

    def test_between(self):
        for low, high in itertools.combinations(BORDERS, 2):
            for path, fold in ((".i", "sum"), (".l", "list")):
                between = [(path, True, ">=", low), (path, True, "<", high)]
                self.asked([(fold, path, True), ("max", ".i", False)], between)

    def test_each_width(self):
        folds = ("sum", "min", "max", "list")
        self.asked([(fold, path, True) for fold, path in itertools.product(folds, (".b", ".s", ".c", ".l"))], [])
        self.asked([(fold, path, True) for fold, path in itertools.product(folds[:3], (".t[]", ".e[].x", ".t[2]"))], [])
        self.asked([("sum", path, True) for path in PATHS] + [("sum", path, False) for path in ALONE[:4]], [])

    def test_many_conditions(self):
        tests = [(path, True, ">=", 1) for path in ALONE]
        tests = (tests + [(path, True, "<", 2 ** PATHS[path][0] - 1) for path in ALONE])[:16]
        self.asked([("count", "", False), ("sum", ".l", True), ("list", ".e[].x", True)], tests)
        self.asked([("count", "", False)], tests)
        tests = [(".i", True, "!=", it) for it in range(2**31 - 8, 2**31 + 8)]
        self.asked([("count", "", False), ("min", ".j", True)], tests)

    def test_random_queries(self):
        for _ in range(60):
            paths = random.choices(list(PATHS), k=random.randint(1, 3))
            items = [(random.choice(["sum", "min", "max", "list"]), path, random.random() < 0.8) for path in paths]
            items += [("count", "", False)] * random.randint(0, 1)
            conditions = []
            for path in random.choices(ALONE, k=random.randint(0, 3)):
                literal, unsigned = some_number(PATHS[path][0]), random.random() < 0.8
                if unsigned or literal < 2**63:
                    conditions.append((path, unsigned, random.choice(list(COMPARED)), literal))
            self.asked(items, conditions, random.choice(["query", "stream"]))

    def test_words_and_pipes(self):
        """What the program prints and ends with, as a program."""
        wanted = plain(self.records, [("count", "", False), ("sum", ".i", True)], [(".l", True, ">=", 2**63)])
        wanted = "".join(line + "\n" for line in wanted)
        query = "count,sum(.i:u32) where .l:u64>=9223372036854775808"
        for words in (["query"], ["stream", "--threads", "4"]):
            self.assertEqual(companion("fmem-unsigned", *words, self.layout, query, self.data), (wanted, "", 0))
        pipe = f'cat "$1" | "$4" "$5" query <(cat "$2") "$3" /dev/stdin'
        words = ("sh", self.data, self.layout, query, sys.executable, os.path.join(HOME, "fmem-unsigned"))
        self.assertEqual(ran("bash", "-c", pipe, *words), (wanted, "", 0))

    def test_refusals_are_those_of_fmem(self):
        none = os.path.join(self.folder, "none")
        ragged = self.file("ragged", b"x")
        for query, file, line, status in (
            ("sum(.nope:u8)", self.data, "query refused 31 0", 5),
            ("sum(.i:u32),sum(.e:u32)", self.data, "query refused 35", 5),
            ("sum(.i:u32", self.data, "query refused 50 10", 5), ("sum(.i:u32] ", self.data, "query refused 50 10", 5),
            ("count:u8", self.data, "query refused 50 5", 5), ("sum(.i:u12)", self.data, "query refused 50 6", 5),
            ("count where .i:u32>=1 or", self.data, "query refused 50 22", 5),
            ("count where .i:u32<01", self.data, "query refused 50 20", 5),
            ("count where .l:u64>18446744073709551615x", self.data, "query refused 50 39", 5),
            ("count where .l:u64>18446744073709551616", self.data, "query refused 50 38", 5),
            ("count where .t[]:u8=1", self.data, "query refused 34 1", 5), ("count", none, f"missing {none}", 2),
            ("sum(.i:u32)", ragged, "ragged 1", 6), ("count", self.folder, "", 3),
        ):
            found = companion("fmem-unsigned", "query", self.layout, query, file)
            self.assertEqual(found, (line + "\n" if line else "", "", status), query)
        self.assertEqual(companion("fmem-unsigned", "query", none, "count", self.data), (f"missing {none}\n", "", 2))

    def test_refusals_of_its_own(self):
        for query, why in (
            ("sum(.i:u64)", ".i is int: u64 isn't for it"), ("count where .b:u16=1", ".b is byte: u16 isn't for it"),
        ):
            found = companion("fmem-unsigned", "query", self.layout, query, self.data)
            self.assertEqual(found, ("", f"fmem-unsigned: {why}\n", 1))
        self.assertEqual(companion("fmem-unsigned", "tally", self.layout, ".b", self.data)[2], 1)


class Explain(Files):
    def explained(self, *words, **options):
        """What is explained, where the output and the status are those of fmem."""
        output, said, status = companion("fmem-explain", *words, **options)
        self.assertEqual((output, status), ran("fmem", *words, **options)[::2])
        return said

    def test_answers_go_through(self):
        self.assertEqual(self.explained("query", SALES[0], "count,list(.tags[])", SALES[1]), "")
        self.assertEqual(self.explained("layout", SALES[0]), "")
        self.assertIn("fmem-explain query", companion("fmem-explain", "--help")[0])

    def test_each_number_of_the_documents(self):
        program = runpy.run_path(os.path.join(HOME, "fmem-explain"))
        statuses, numbers, heading = set(), set(), ""
        with open(REFUSALS, encoding="utf-8") as document:
            for line in document:
                heading = line if line.startswith("## ") else heading
                row = re.match(r"\| (\d+)", line)
                if row and heading != "## Texts\n":  # these come with status 0
                    (statuses if heading == "## Statuses\n" else numbers).add(int(row[1]))
        self.assertEqual(set(program["STATUSES"]) | {4, 5}, statuses)
        self.assertEqual(set(program["REFUSALS"]) - {6}, numbers)

    def test_the_place_in_a_layout(self):
        for text, place in (
            ('{"type":"struct","members":[\n  {"type":"int"},\n  {"type":"float"}]}',
             'line 3, column 3: {"type":"float"}'),
            ('{"type":"int",}', "line 1, column 15: "),
            ('{"type":"struct","members":[{"type":"byte","name":"a"},\n'
             '{"type":"union","members":[ {"type":"int","align":3}]}]}',
             'line 2, column 29: {"type":"int","align":3}'),
            ('{"type":"sequence","count":2,"element":\n {"type":"struct","members":[{"type":"byte"},{"type":"int"}]}}',
             'line 2, column 2: {"type":"struct","members":[{"type":"byte"},{"type":"int"}]}'),
            ('{"version":2,"types":[{"define":"p","layout":{"type":"int"}},{"define":"p",\n"layout":{"type":"int"}}],'
             '"layout":{"type":"ref","of":"p"}}', 'line 1, column 62: {"define":"p", "layout":{"type":"int"}}'),
            ('{"version":2,"types":[{"define":"p","layout":{"type":"int"}}],\n"layout":{"type":"ref","of":"q"}}',
             'line 2, column 10: {"type":"ref","of":"q"}'),
            ('{"version":2,"types":[{"define":"p","layout":{"type":"int"}},\n{"define":"q","layout":{"type":"struct",'
             '"members":[{"type":"byte"},{"type":"ref","of":"p"}]}}],"layout":{"type":"byte"}}',
             'line 2, column 24: {"type":"struct","members":[{"type":"byte"},{"type":"ref","of":"p"}]}'),
        ):
            said = self.explained("layout", self.file("layout", text))
            self.assertIn("\n" + place, said, text)
        empty = self.file("layout", '{"type":"struct","members":[]}')
        self.assertIn("line 1, column 1: ", self.explained("query", empty, "count", SALES[1]))
        self.assertIn("can't be shown", self.explained("layout", self.file("layout", b'"\xff"')))

    def test_the_place_in_a_query(self):
        for query, under in (
            ("sum(.price) where .kind >= 2", "                       ^"), ("sum(.price", "          ^"), ("", "^"),
            ("count,sum(.nope)", "          ^^^^^"), ("sum(.id),max(.tags[4])", "                  ^^^"),
            ("sum(.tags)", "    ^^^^^"), ("count where .id=1 and .tags[]>0", "                           ^^"),
            ("min(.tags[0:0])", "         ^^^^^"), ("sum(.#1.low)", "       ^^^^"), ("sum(.id[])", "       ^^"),
        ):
            said = self.explained("query", SALES[0], query, SALES[1])
            self.assertTrue(said.endswith(f"\n{query}\n{under}\n"), said)
        said = self.explained("tally", "--threads=2", "--", SALES[0], ".price", SALES[1])
        self.assertTrue(said.endswith("\n.price\n^^^^^^\n"), said)
        self.assertTrue(self.explained("tally", SALES[0], ".tags[9]", SALES[1]).endswith("\n.tags[9]\n     ^^^\n"))
        for path, under in ((".tags", "^^^^^"), (".tags[9]", "     ^^^"), (".price.low", "      ^^^^")):
            said = self.explained("group", "--threads=2", "--", SALES[0], path, SALES[1])
            self.assertTrue(said.endswith(f"\n{path}\n{under}\n"), said)
        for path, under in (
            (".tags[]", "     ^^"), (".price", "^^^^^^"), (".nope", "^^^^^"), ("--", "^"), ("--threads", "^"),
        ):
            said = self.explained("texts", SALES[0], path, SALES[1])
            self.assertTrue(said.endswith(f"\n{path}\n{under}\n"), said)

    def test_other_statuses(self):
        script = self.file("script", "pool 1 1 8 1000 1\nfirst open a\n")
        for words, text in (
            (["run", script], "line 2: first open a"), (["layout", SALES[0] + "x"], "no file has this name"),
            (["layout", HOME], "a read failed"), (["query", SALES[0], "count"], "fmem query [--threads N] LAYOUT"),
            (["texts", SALES[0], ".tags"], "fmem texts LAYOUT PATH FILE"),
            (["sum", "16", "8", "long", os.path.join(EXAMPLES, "ragged")], "ragged 1: "), ([], "fmem sum SIZE"),
            (["help"], "fmem run FILE"),
        ):
            self.assertIn(text, self.explained(*words))


class Json(Files):
    def test_answers(self):
        for command, query, wanted in (
            ("query", "count,sum(.price),min(.id) where .id>0", {"count": 2, "sum(.price)": 210, "min(.id)": 1}),
            ("stream", "list(.tags[]),max(.id)", {"list(.tags[])": [1, 2, 3, 4, 5, 0, 0, -1], "max(.id)": 2}),
            ("query", "max(.id),list(.id) where .id=9", {"max(.id)": None, "list(.id)": []}),
        ):
            output, said, status = companion("fmem-json", command, SALES[0], query, SALES[1])
            lines = [json.loads(line) for line in output.splitlines()]
            self.assertEqual({it["item"]: it["values" if "values" in it else "value"] for it in lines}, wanted)
            self.assertEqual((said, status), ("", 0))

    def test_a_sum_of_more_than_64_bits(self):
        layout, data = self.file("layout", '{"type":"long"}'), self.file("data", struct.pack("<4q", *4 * [-(2**63)]))
        output, _, _ = companion("fmem-json", "query", layout, "sum(.)", data)
        self.assertEqual(json.loads(output)["value"], -(2**65))

    def test_tallies_and_sums(self):
        output, _, _ = companion("fmem-json", "tally", SALES[0], ".tags[]", SALES[1])
        lines = [json.loads(line) for line in output.splitlines()]
        self.assertEqual((lines[0], lines[-1]), ({"value": -1, "count": 1}, {"total": 8}))
        output, _, _ = companion("fmem-json", "group", SALES[0], ".price", SALES[1])
        lines = [json.loads(line) for line in output.splitlines()]
        self.assertEqual(lines, [{"value": -40, "count": 1}, {"value": 250, "count": 1}, {"total": 2}])
        self.assertEqual(companion("fmem-json", "sum", "24", "8", "long", SALES[1])[0], '{"sum": 210}\n')

    def test_texts(self):
        field = self.file("layout", '{"type":"sequence","count":4,"element":{"type":"byte"}}')
        names = ["ada", "", 'a"\n', "\u00fc", "\u20ac"]
        data = self.file("data", b"".join(name.encode().ljust(4, b"\0") for name in names) + b"a\xff\0\0" + b"full")
        output, said, status = companion("fmem-json", "texts", field, ".", data)
        wanted = [*({"text": name} for name in names), {"refused": [60, 1]}, {"refused": [61]}]
        self.assertEqual(([json.loads(line) for line in output.splitlines()], said, status), (wanted, "", 0))
        self.assertEqual(companion("fmem-json", "texts", field, ".[0]", data), ("", "query refused 50 1\n", 5))

    def test_what_is_no_answer(self):
        found = companion("fmem-json", "query", SALES[0], "sum(.nope)", SALES[1])
        self.assertEqual(found, ("", "query refused 31 0\n", 5))
        self.assertEqual(companion("fmem-json", "layout", SALES[0])[2], 1)
        with open("/dev/full", "wb") as full:
            words = [sys.executable, os.path.join(HOME, "fmem-json"), "query", *SALES[:1], "count", SALES[1]]
            self.assertEqual(subprocess.run(words, stdout=full).returncode, 8)


class Inner(ctypes.Structure):
    _pack_ = 1
    _fields_ = [("a", ctypes.c_uint8), ("b", ctypes.c_uint16)]


class Pair(ctypes.Structure):
    _fields_ = [("x", ctypes.c_uint8), ("y", ctypes.c_uint64)]


class Either(ctypes.Union):
    _fields_ = [("bytes", ctypes.c_uint8 * 5), ("number", ctypes.c_int32)]


class Record(ctypes.Structure):
    _fields_ = [
        ("id", ctypes.c_uint32), ("kind", ctypes.c_uint16), ("other", ctypes.c_uint16), ("name", ctypes.c_char * 16),
        ("text", ctypes.c_void_p), ("flag", ctypes.c_int8), ("either", Either), ("inner", Inner * 3),
        ("pairs", Pair * 2), ("k", ctypes.c_int), ("call", ctypes.c_void_p),
        ("big", ctypes.c_ulonglong), ("yes", ctypes.c_bool),
        ("grid", ctypes.c_uint8 * 3 * 2), ("s", ctypes.c_int), ("h", ctypes.c_short), ("l", ctypes.c_long),
    ]


HEADER = """
#include <stdint.h>
#define NAME 16   /* of a text */
#define ROWS 0x2U
typedef uint32_t id_type; /* struct { not this; } */
enum kind { ONE, TWO };
union either { uint8_t bytes[5]; int32_t number; };
struct inner { uint8_t a; __u16 b; } __attribute__((packed));
typedef struct { uint8_t x; u64 y; } pair_type;
struct record {
    id_type id; // one
    uint16_t kind, other;
    char name[NAME];
    const char *text; signed char flag;
    union either either;
    struct inner inner[3];
    pair_type pairs[ROWS];
    enum kind k;
    int (*call)(int, void *);
    unsigned long long big;
    bool yes;
    uint8_t grid[ROWS][(NAME - 4UL) * 2 - 0x15];
    signed s; short int h; long l;
};
int f(struct record *it);
"""
PAHOLE = """
struct record {
	uid_type                   owner;                /*     0     4 */

	/* XXX 4 bytes hole, try to pack */

	long unsigned int          size;                 /*     8     8 */
	char                       name[5];              /*    16     5 */
	struct {
		/* typedef odd_type -> __odd */ short int          odd[2]; /*    22     4 */
		odd_type           even[1];              /*    26     2 */
	} at;                                            /*    22     6 */

	/* size: 32, cachelines: 1, members: 4 */
	/* sum members: 23, holes: 2, sum holes: 5 */
	/* padding: 4 */
};
"""
KAITAI = """
meta:
  id: disk   # a sector
  endian: le
seq:
  - id: code
    size: 446
  - id: partitions
    type: partition
    repeat: expr
    repeat-expr: 4
  - id: mark
    type: u2
types:
  partition:
    seq:
      - {id}: boot
        type: u1
      - id: first
        type: address
        size: 4
      - id: kind
        contents: [7, "a", 0x0]
      - id: start
        type: u4be
  address:
    seq:
    - id: head
      type: s1
    - id: rest
      type: str
      size: 0x2
""".replace("{id}", "id")


VARIOUS = """
seq:
- id: a
  type: f8le
- id: b
  type: b3
- id: c
  type: strz
- id: d
  type: u1
  repeat: eos
- id: e
  type: u4
- id: f
  type: other
"""


class Layout(Files):
    def layout(self, *words, **options):
        """The layout's file, what fmem lists of it, and what is said on the standard error."""
        output, said, status = companion("fmem-layout", *words, **options)
        self.assertEqual(status, 0, said)
        file = self.file("layout", output)
        listing, _, status = ran("fmem", "layout", file)
        self.assertEqual(status, 0, listing + output)
        size, _, *values = listing.splitlines()
        return file, int(size.split()[1]), {it.split()[0]: tuple(it.split()[1:4]) for it in values}, said

    def test_formats_of_struct(self):
        random.seed(66)
        for _ in range(25):
            codes = random.choices("cbB?hHiIlLqQxsnNP", k=random.randint(1, 8))
            prefix = random.choice(["", "@", "<", ">", "=", "!"])
            codes = [it for it in codes if prefix in ("", "@") or it not in "nNP"] + ["i"]
            text = prefix + "".join(random.choice(["", "1", "3", " 2"]) + it for it in codes)
            file, size, _, _ = self.layout("struct", text)
            self.assertEqual(size, struct.calcsize(text), text)
            record = bytes(random.choice([0, 1, 127, 128, 255]) for _ in range(size))
            output, _, _ = ran("fmem", "query", file, ",".join(self.lists(file)), self.file("data", record))
            found = [int(it) for line in output.splitlines() for it in line.split()[1:]]
            self.assertEqual(found, list(self.values(text, record)), text)

    def lists(self, file):
        with open(file, encoding="utf-8") as text:
            for it in json.load(text)["members"]:
                if "name" in it:
                    yield f"list(.{it['name']}{'[]' * (it['type'] == 'sequence')})"

    def values(self, text, record):
        """What struct reads, as fmem counts it."""
        found = re.findall(r"(\d*)([A-Za-wyz?])", text)
        codes = [code for count, code in found for _ in range(1 if code == "s" else int(count or 1))]
        for code, value in zip(codes, struct.unpack(text, record)):
            if isinstance(value, bytes):
                yield from (it - 256 * (it > 127) for it in value)
            else:
                half = 8 * struct.calcsize(text[0] + code if text[0] in "<>=!" else code) - 1
                yield value - 2 ** (half + 1) if code in "BILQNP" and value >= 2**half else int(value)

    def test_names_and_signs(self):
        _, _, values, said = self.layout("struct", "<IHxxq", "id,kind,price")
        self.assertEqual({path: it[:2] for path, it in values.items()},
                         {".id": ("0", "int"), ".kind": ("4", "char"), ".price": ("8", "long")})
        self.assertEqual(said, "fmem-layout: unsigned: .id:u32\n")
        self.assertEqual(self.layout("struct", "ih0q")[1], 8)

    def test_a_header(self):
        _, size, values, said = self.layout("c", self.file("record.h", HEADER))
        self.assertEqual(size, ctypes.sizeof(Record))
        for name, _ in Record._fields_:
            first = next(place for path, (place, _, _) in values.items() if re.match(rf"\.{name}\b", path))
            self.assertEqual(int(first), getattr(Record, name).offset, name)
        self.assertEqual(values[".inner[].b"][:2], (str(Record.inner.offset + 1), "char"))
        self.assertEqual(values[".pairs[].y"][:2], (str(Record.pairs.offset + 8), "long"))
        self.assertEqual(said.split(": ")[2].split(), [
            ".id:u32", ".text:u64", ".either.bytes[]:u8", ".inner[].a:u8", ".pairs[].x:u8", ".pairs[].y:u64",
            ".call:u64", ".big:u64", ".grid[][]:u8"])
        for name, size, before in (
            ("inner", 3, ""), ("pair_type", 16, ""), ("either", 8, ""), ("pair_type", 9, "#pragma pack(push, 1)\n"),
        ):
            self.assertEqual(self.layout("c", self.file("record.h", before + HEADER), name)[1], size)

    def test_text_of_pahole(self):
        _, size, values, _ = self.layout("c", "/dev/stdin", input=PAHOLE)
        self.assertEqual((size, {path: int(it[0]) for path, it in values.items()}),
                         (32, {".owner": 0, ".size": 8, ".name[]": 16, ".at.odd[]": 22, ".at.even[]": 26}))

    def test_a_file_of_kaitai(self):
        _, size, values, said = self.layout("kaitai", self.file("disk.ksy", KAITAI))
        self.assertEqual((size, values), (496, {
            ".code[]": ("0", "byte", "little"), ".partitions[].boot": ("446", "byte", "little"),
            ".partitions[].first.head": ("447", "byte", "little"),
            ".partitions[].first.rest[]": ("448", "byte", "little"),
            ".partitions[].kind[]": ("451", "byte", "little"), ".partitions[].start": ("454", "int", "big"),
            ".mark": ("494", "char", "little")}))
        self.assertEqual(said, "fmem-layout: unsigned: .partitions[].boot:u8 .partitions[].start:u32\n")
        self.assertEqual(self.layout("kaitai", self.file("disk.ksy", KAITAI), "partition")[1], 12)

    def test_what_cannot_be_said(self):
        for words, whys in (
            (["struct", "<if"], ["v1: there are no floats"]), (["struct", "<2y"], ["bad char"]),
            (["struct", "<i", "a,b"], ["names of no value: b"]),
            (["c", os.path.join(self.folder, "none")], ["No such file"]),
            (["c", self.file("a.h", "struct a { int a:3, b; double c; char d[], f[LEN]; unknown e; char g[2**9]; };")],
             ["a: there are no bit fields", "c: there are no floats", "d: its length varies",
              "f: its count isn't a number", "e: its type isn't", "g: its count isn't a number"]),
            (["c", self.file("b.h", "int f(void);")], ["no struct"]),
            (["c", self.file("b.h", ""), "c"], ["no struct c"]),
            (["kaitai", self.file("a.ksy", VARIOUS)],
             ["a: there are no floats", "b: there are no bit fields", "c: its length varies", "d: its length varies",
              "e: its byte order isn't said", "f: its type isn't known"]),
        ):
            output, said, status = companion("fmem-layout", *words)
            self.assertEqual((output, status), ("", 1), words)
            for why, line in zip(whys, said.splitlines()):
                self.assertIn(why, line)
            self.assertEqual(len(said.splitlines()), len(whys), said)


class Help(unittest.TestCase):
    def test_each_companion_has_one_and_is_short(self):
        for name in sorted(os.listdir(HOME)):
            if name.startswith("fmem-"):
                output, said, status = companion(name, "--help")
                self.assertEqual((said, status), ("", 0), name)
                self.assertIn(name, output)
                with open(os.path.join(HOME, name), encoding="utf-8") as program:
                    lines = program.readlines()
                self.assertLess(len(lines), 200, name)
                self.assertLess(max(map(len, lines)), 122, name)


if __name__ == "__main__":
    sys.dont_write_bytecode = True
    unittest.main(verbosity=0)
