"""Inputs at the borders of what reads, for `bench/second-checker`: each a dict of the files that are other than usual.

`text` is the manifest, `a`, `b` and `c` are files of the index, `old` is the lock, `proof` the derivation, and `source`
the source. Usually the manifest needs a 1, the index has a 1.0.0, and the derivation proves where no version of a fits.
"""
import itertools
import json

import making

NO_A = making.step("X0", [["root", ["absent"]]]) + making.step("X1", [["root", ["present"]]])
NO_A += making.step([0, 1, "root"], [])
NEEDS_A = making.manifest([making.needs("a")])
LARGEST = 2**64 - 1

NAMES = ["1", "-a", "_", "A", "a.b", "a+b", "+", "a b", "a/b", "a@b", "\u00e9", "", "a" * 64, "a" * 65, "a" * 256]
ENTRIES = ["dep:b", "dep:c", "dep:", "dep:b/f", "b/f", "b?/f", "b/", "b?/", "/f", "?/f", "b//f", "b/f/g", "b??/f",
           "b?f", "c/f", "c?/f", "b", "c", "default", "f", "g", "b/dep:b", "b/+", "b:f", "Dep:b"]
VALUES = [None, 0, 1, 2, 3, -1, 1.0, 1.5, True, False, "x", "", "1", "1.0.0", [], {}, [""], ["f"], ["a/b"], ["dep:a"],
          [1], {"f": []}, {"f": ["f"]}, {"f": ["g"]}, {"f": None}, {"f": [None]}, {"": []}, LARGEST, LARGEST + 1,
          "normal", "build", "dev"]

VERSIONS = ["0.0.0", "0.0.3", "0.0.3-a", "0.1.0", "0.2.0-b", "1.0.0-a", "1.0.0-a.1", "1.0.0-a.b", "1.0.0-9", "1.0.0",
            "1.2.0", "1.2.3-alpha", "1.2.3-beta", "1.2.3", "1.3.0", "2.0.0-rc", "2.0.0", f"{LARGEST}.0.0"]
ODD_VERSIONS = ["1", "1.0", "1.0.0.0", "01.0.0", "1.0.0-", "1.0.0-01", "1.0.0-0", "1.0.0-a..b", "1.0.0+", "1.0.0+01",
                "1.0.0-a_b", " 1.0.0", "1.0.0 ", "v1.0.0", "", "1.0.x", f"{LARGEST + 1}.0.0", "1.0.0-" + "9" * 5000,
                "1.0.0--", "1.0.0-00a"]
SIGNS = ["", "=", ">", ">=", "<", "<=", "~", "^"]
NUMBERS = ["0", "1", "0.0", "0.2", "1.2", "0.0.3", "1.2.3", "1.2.3-alpha", "1.0.0-a.1", "1.*", "1.2.x", "*"]
REQUIREMENTS = [sign + numbers for sign in SIGNS for numbers in NUMBERS] + [
    "", " ", "x", " X ", "*.1", "1.*.3", "1.*.*", "01", "1.2-a", "1.*-a", "1.2.3-", "1.2.3-01", "1.2.3+b", "1.2+b",
    ">=1, <2", ">=1,<2", ">=1 <2", "1,", ",1", "*,1", "1,*", " ^ 1.2 , <2 ", "\t1", "1\n", "v1", "1.2.3.4", "> = 1",
    "==1", "\u00e9", "^1, >=1.2.3-alpha", "=1.2, >=1.2.3-alpha", "~1.2, >=1.2.3-alpha", "<=1.2, <=1.2.3-beta",
    ">1, >=1.2.3-alpha", f"{LARGEST}", f"{LARGEST + 1}", ", ".join(["1"] * 32), ", ".join(["1"] * 33)]

JSON = ["NaN", "-Infinity", "1e999", "-1e999", "1e-999", "01", "-0", "1.", ".1", "+1", "1E+2", "0x1", "9" * 309,
        "9" * 308, "9" * 5000, "2e308", "0e999", r'"\ud800"', r'"\udc00"', r'"\ud83d\ude00"', r'"\\ud800"',
        r'"\\\ud800"', r'"\uDBFF\uDFFF"', r'"\u00zz"', r'"\x"', r'"\/"', '"\t"', '"\x7f"', "tru", "True", "[1,]", "{,}",
        "[" * 126 + "]" * 126, "[" * 127 + "]" * 127, '{"z":' * 126 + "1" + "}" * 126, '{"z":' * 127 + "1" + "}" * 127,
        "[" * 2000 + "]" * 2000, '"' + "[" * 200 + '"', '1,"name":"b"', '1,"axiom":"X1"']
VERTICES = ["root", "root x", "pkg a 1", "pkg a", "pkg a 01", "pkg a 0", "pkg a 0.0", "pkg a 0.0.0", "pkg a 0.1",
            "pkg a 1.0", f"pkg a {LARGEST + 1}", f"pkg a 0.0.{LARGEST + 1}", "pkg  a 1", "pkg a 1 ", "dep root 0",
            "dep root 00", "dep root 4294967295", "dep root 4294967296", "dep a 0", "dep a@1.0.0 0", "dep a@1 0",
            "dep @1.0.0 0", "feat a 1 f", "feat a 1", "feat a 1 f/g", "ask a@1.0.0 0 g", "ask root 0 g", "opt a 1", ""]
LOCKED = [("b", "1.0.0", None), ("b", "1.0.0", "s"), ("c", "1.0.0", "s"), ("c", "2.0.0", "s"), ("d", "1.0.0", "s"),
          ("d", "1.0.0", "t"), ("e", "1.0.0+x", "s (x)"), ("f", "1.0.0", "")]
LISTED = ["a", "b", "c", "d", "e", "f", "g", "a 1.0.0", "b 1.0.0", "b 1.0.0 (s)", "c 1.0.0", "c 3.0.0", "d 1.0.0",
          "d 1.0.0 (s)", "d 1.0.0 (u)", "e 1.0.0", "e 1.0.0+x", "e 1.0.0+x (s (x))", "f 1.0.0 ()", "f  1.0.0", "f ", ""]


def line(key="z", value=None, **more):
    """A line of a, with a key set to a value."""
    return json.dumps({"name": "a", "vers": "1.0.0", "deps": [], "cksum": making.ZEROS, **more, key: value}) + "\n"


def names():
    for name in NAMES:
        yield {"text": making.manifest([f'"{name}" = "1"'])}
        yield {"text": making.manifest([making.needs("a", package=name)])}
        yield {"text": making.manifest([making.needs("a", features=[name])])}
        yield {"text": NEEDS_A.replace('"demo"', f'"{name}"')}
        yield {"text": NEEDS_A + f'[features]\n"{name}" = []\n'}
        yield {"a": line("features", {name: []})}
        yield {"a": line("deps", [making.dep("b", package=name)])}
        yield {"a": line("deps", [making.dep("b", features=[name])])}
        yield {"old": making.lock([making.package(name, "1.0.0")])}
    for entry, is_optional in itertools.product(ENTRIES, (False, True)):
        yield {"text": making.manifest([making.needs("b", optional=is_optional)], [f'f = ["{entry}"]'])}
        for kind in ("normal", "dev"):
            yield {"a": line("features", {"f": [entry]}, deps=[making.dep("b", optional=is_optional, kind=kind)])}


def versions():
    for version in ODD_VERSIONS:
        yield {"text": making.manifest(['a = ">=0.0.0"']), "a": line("vers", version)}
        yield {"text": NEEDS_A.replace("0.1.0", version)}
        yield {"old": making.lock([making.package("q", version)])}
        yield {"proof": making.step("X0", [["root", ["absent"]], ["pkg a 1", [version]]])}
    for text in REQUIREMENTS:
        yield {"text": making.manifest([making.needs("b")]), "b": making.record("b", "1.0.0", [making.dep("a", text)])}
        for version in VERSIONS:
            yield {"text": making.manifest([making.needs("a", text)]), "a": line("vers", version)}


def values():
    """Values of other kinds in a line of the index and in a derivation."""
    for value in VALUES:
        for key in ("name", "vers", "deps", "cksum", "features", "features2", "yanked", "v", "rust_version", "z"):
            yield {"a": line(key, value)}
        for key, kind in itertools.product(
                ("name", "kind", "package", "req", "optional", "default_features", "features", "registry", "target"),
                ("normal", "dev")):
            yield {"a": line("deps", [{**making.dep("b", kind=kind), key: value}])}
        for terms in (value, [value], [["root", value]], [["root", [value]]], [[value, []]]):
            yield {"proof": making.step("X0", terms)}
        for combined in (value, [0, value, "root"], [value, 0, "root"], [0, 0, value], [0, 0, "root", value]):
            yield {"proof": NO_A + json.dumps({"combine": combined, "terms": [["root", ["absent"]]]})}


def files():
    for text in JSON:
        yield {"a": line()[:-2] + f',"z":{text}}}'}
        yield {"proof": NO_A.replace("}", f',"z":{text}}}', 1)}
    for vertex in VERTICES:
        for state in ("absent", "present", "1", "0.1", "0.0.0", "1.0.0", "1.0", "0", ""):
            yield {"proof": making.step("X0", [[vertex, [state]]])}
        yield {"proof": NO_A + json.dumps({"combine": [0, 0, vertex], "terms": [["root", ["absent"]]]})}
    for text, more in itertools.product(LISTED, ([], ["f"], ["b 1.0.0"])):
        others = [making.package(name, version, [], source) for name, version, source in LOCKED]
        yield {"old": making.lock([making.package("a", "1.0.0", [text, *more], None), *others])}
    for checksum, version in itertools.product((making.ZEROS, "1" * 64, ""), ("1.0.0", "1.0.0+b")):
        for source in (making.CRATES_IO, "x", "a b", "x" * 512, "x" * 513, "(", "~"):
            old = making.lock([making.package("a", version, [], "x", checksum)])
            yield {"a": line("yanked", True, vers="1.0.0+b"), "source": source, "old": old}


KINDS = {
    "text": making.manifest([making.needs("a", features=["f"]), making.needs("c", "*"),
                             making.needs("x", ">=2", package="c")]),
    "a": making.record("a", "1.0.0", [making.dep("d", kind="dev"), making.dep("c", features=["q"]),
                                      making.dep("b", optional=True, default_features=True)],
                       {"f": ["b/g", "d/x", "d?/y", "c?/z", "dep:b", "g"], "g": [], "h": ["f", "h"]}),
    "b": making.record("b", "1.0.0", features={"g": []}),
    "c": making.record("c", "1.0.0") + making.record("c", "2.0.0") + making.record("c", "2.1.0")}


def axioms():
    """Steps of one axiom, over an input that has instances of each kind, that are one or nearly."""
    holders = {"root": ["root", ["present"]], "a@1.0.0": ["pkg a 1", ["1.0.0"]], "b@1.0.0": ["pkg b 1", ["1.0.0"]]}
    on, other = ["feat a 1 f", ["present"]], ["feat a 1 h", ["present"]]
    for (owner, holder), at in itertools.product(holders.items(), range(3)):
        dep = f"dep {owner} {at}"
        none, to = [dep, ["absent"]], [dep, ["1"]]
        steps = [("X1", [holder]), ("X1", [holder, none]), ("X6", [holder, on, none]), ("X6", [holder, on])]
        few = (["absent"], ["absent", "1.0.0"], ["absent", "2.0.0"])
        for name, of_class, states in itertools.product("abc", "12", few):
            steps.append(("X2", [[dep, [of_class]], [f"pkg {name} {of_class}", states]]))
        for name, f in itertools.product("abc", ["f", "g", "h", "b", "default", "q", "x", "y", "z"]):
            feature, ask = f"feat {name} 1 {f}", f"ask {owner} {at} {f}"
            off, have = [feature, ["absent"]], [feature, ["present"]]
            steps += [("X3", [have, [f"pkg {name} 1", ["absent"]]]), ("X3", [have]), ("X4", [to, off]),
                      ("X4", [[ask, ["present"]], to, off]), ("X5", [holder, on, off]), ("X5", [holder, other, off]),
                      ("X7", [[ask, ["absent"]], holder, on]), ("X9", [to, holder, on, off])]
        for low, high, second in itertools.product("12", "12", range(3)):
            for states in ([], [f"{high}.0.0"], ["2.0.0", "2.1.0"], ["absent"]):
                steps.append(("X8", [[dep, [low]], [f"dep {owner} {second}", [high]], [f"pkg c {high}", states]]))
        for kind, terms in steps:
            yield {**KINDS, "proof": making.step(kind, terms)}


def all_of_them():
    return itertools.chain(names(), versions(), values(), files(), axioms())
