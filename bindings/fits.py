"""Whether the header, the Rust declarations and the Python ones fit the exports: names, and each parameter's width.

Run at the repository's top. It reads texts alone, and prints what differs.
"""

import re
import sys

OF_RATTLE = {
    "Global": [],
    "&[u8]": ["const u8*", "usize"],
    "&mut [u8]": ["u8*", "usize"],
    "&mut [i64]": ["i64*", "usize"],
    "&mut [Counted]": ["counted*", "usize"],
    "&mut [Stride]": ["stride*", "usize"],
    "&[Stride]": ["const stride*", "usize"],
    "&[u64]": ["const u64*", "usize"],
    "&Place": ["const place*"],
    "&Within": ["const within*"],
    "&mut u64": ["u64*"],
    "&mut Extent": ["extent*"],
    "&mut Place": ["place*"],
    "&mut Report": ["report*"],
    "&mut Handle": ["handle*"],
    "&Report": ["const report*"],
}
OF_C = {"uint8_t": "u8", "size_t": "usize", "uint64_t": "u64", "int64_t": "i64"}


def read(name):
    with open(name, encoding="utf-8") as file:
        return file.read()


def parameters(text):
    return [" ".join(it.split()) for it in text.split(",") if it.strip()]


def exports():
    text, found = read("crates/fm_c/src/lib.rt"), {}
    for name, inside, answer in re.findall(r'extern "C" fn (\w+)\(([^)]*)\) -> (\w+)', text):
        found[name] = [answer, *sum((OF_RATTLE[it.split(": ")[1]] for it in parameters(inside)), [])]
    return found


def c_type(words):
    """The type of a parameter: its last word is its name."""
    name = re.sub(r"\w+$", "", words).strip()
    const = "const " if name.startswith("const ") else ""
    name = name.removeprefix("const ").removeprefix("struct fm_")
    base = name.rstrip(" *")
    return const + OF_C.get(base, base) + "*" * name.endswith("*")


def header():
    text = re.sub(r"/\*.*?\*/", "", read("include/fmem.h"), flags=re.S)
    found = {}
    for answer, name, inside in re.findall(r"(\w+) (fm_\w+)\(([^)]*)\);", text):
        found[name] = [OF_C[answer], *map(c_type, parameters(inside))]
    return found, structs(re.findall(r"struct fm_(\w+) \{(.*?)\}", text, re.S), r"(\w+) (\w+);", OF_C)


def rust():
    text, found = read("bindings/rust/src/raw.rs"), {}
    for name, inside, answer in re.findall(r"fn (fm_\w+)\(([^)]*)\) -> (\w+);", text, re.S):
        types = [it.split(": ")[1].lower() for it in parameters(inside)]
        types = [re.sub(r"^\*(const|mut) (\w+)$", r"\1 \2*", it).removeprefix("mut ") for it in types]
        found[name] = [answer, *types]
    return found, structs(re.findall(r"pub struct (\w+) \{(.*?)\}", text, re.S), r"pub (\w+): (\w+),", None)


def structs(bodies, field, widths):
    found = {}
    for name, body in bodies:
        pairs = re.findall(field, body)
        found[name.lower()] = [(n, widths[t]) for t, n in pairs] if widths else pairs
    return found


def of_rattle():
    found = {}
    for name in ("extent", "groups", "place", "report", "spot"):
        text = read(f"crates/fm_c_calls/src/{name}.rt")
        found |= structs(re.findall(r"#\[repr\(C\)\].*?pub struct (\w+) \{(.*?)\n\}", text, re.S), r"pub (\w+): (\w+),", None)
    return found


def main():
    wrong, wanted, shapes = 0, exports(), of_rattle()
    for what, (calls, types), some in (("the header", header(), False), ("bindings/rust", rust(), True)):
        for name, signature in wanted.items():
            if calls.get(name, signature if some else None) != signature:
                wrong = 1
                print(f"{what}: {name} is {calls.get(name)}, and exported as {signature}")
        for name in calls.keys() - wanted.keys():
            wrong = 1
            print(f"{what}: {name} isn't exported")
        for name, fields in shapes.items():
            if types.get(name) != fields:
                wrong = 1
                print(f"{what}: {name} has {types.get(name)}, and not {fields}")
    for name, signature in wanted.items():
        told = re.search(rf"_lib\.{name}\.argtypes = \[(.*)\]", read("bindings/python/fmem.py"))
        count = sum(2 if "_slice" in it else 1 for it in told[1].split(", ")) if told else None
        if count != len(signature) - 1:
            wrong = 1
            print(f"bindings/python: {name} has {count} parameters, and not {len(signature) - 1}")
    return wrong


if __name__ == "__main__":
    sys.exit(main())
