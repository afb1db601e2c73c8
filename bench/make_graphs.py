#!/usr/bin/env python3
"""Writes graph files to measure, and a list of them, into a folder.

    bench/make_graphs.py FOLDER [KIND | KIND=SIZE ..]

Without kinds all are written, each in the sizes that `KINDS` has for it; a kind alone is written in these sizes, and
`KIND=SIZE` in that one. What a size counts is said by the function of the kind, and so is what the graph is the worst
case of. Each line of `list.txt` has a file, its kind, its size, and what it is, with tabs between.
"""
import os
import random
import sys

MAX_BYTES, MAX_FEATURES, MAX_ROWS = 1_048_576, 16_384, 262_144

# a record has at most so many asks or values
MAX_STRINGS = 255

# the hash of the library's index: the number of buckets, and the factor
BUCKETS, FACTOR = 32_749, 263


def string(text):
    return bytes([len(text)]) + text.encode()


def strings(texts):
    return bytes([len(texts)]) + b"".join(string(t) for t in texts)


def record(kind, body):
    return (2 + len(body)).to_bytes(4, "little") + kind.to_bytes(2, "little") + body


def package(name, proc_mark=0):
    return record(2, bytes([proc_mark]) + string(name))


def dependency(name, end, kind=0, optional=0, defaults=0, asks=()):
    head = end.to_bytes(2, "little") + bytes([kind, optional, defaults])
    return record(3, head + string(name) + strings(asks))


def feature(name, values=()):
    return record(4, string(name) + strings(values))


def file(records):
    """The bytes of a file with these records between header and end."""
    data = record(1, (1).to_bytes(2, "little")) + b"".join(records) + record(5, b"")
    if len(data) > MAX_BYTES:
        sys.exit("%d bytes are too many" % len(data))
    return data


def values(texts, prefix="v"):
    """Features that have these values, as many in each as there may be."""
    texts = list(texts)
    starts = range(0, len(texts), MAX_STRINGS)
    return [feature("%s%d" % (prefix, k), texts[s : s + MAX_STRINGS]) for k, s in enumerate(starts)]


def spread(count, known):
    """So many numbers below `known` that look random, and are the same in each run."""
    return [i * 2654435761 % known for i in range(count)]


# ------------------------------------------------------------------------------------------------ ordinary graphs

WORDS = "async auth bytes cache client codec config core crypto data derive error event format hash http io json log \
macro net parse path proto queue rand regex router serde server socket sync task time token tower trace url utils".split()
FLAGS = "alloc async-io backtrace compat debug derive full futures logging macros net parking_lot rayon rt serde_derive \
simd tls tracing unstable v4 wasm".split()


def crate_names(dice, count):
    """Different names of packages, as crates have them."""
    names = {}
    while len(names) < count:
        parts = dice.choices(WORDS, k=dice.choice([1, 2, 2, 2, 3]))
        names[dice.choice("-_").join(parts) + dice.choice(["", "", "", "-rs", "2", "-sys"])] = None
    return list(names)


def crate_features(dice, optional):
    """The features of a package with these optional dependencies: names, and with each its values."""
    own = dice.sample(FLAGS, dice.choice([0, 0, 1, 2, 2, 3, 5, 9]))
    made = {name: dice.sample(own[:k], dice.randint(0, min(k, 2))) for k, name in enumerate(own)}
    made["std"] = (["alloc"] if "alloc" in made else []) + [name + "?/std" for name in optional]
    for name in optional:
        made.setdefault(name, ["dep:" + name])
    made["default"] = ["std"] + dice.sample(own, dice.randint(0, min(len(own), 3)))
    return made


def crate_dependency(dice, name, end, optional, known):
    """A dependency on a package of which these features are known, and the values that name it."""
    kind = dice.choice([0] * 8 + [1, 2])
    asks = dice.sample(known, dice.choice([0, 0, 0, 1, 1, 2])) if len(known) > 1 else []
    return dependency(name, end, kind, int(optional), dice.choice([0, 1, 1]), asks)


def workspace(packages):
    """like a Cargo workspace: so many packages, with long names and a few dependencies and features each"""
    dice = random.Random(packages)
    names = crate_names(dice, packages)
    ends, features = [], []
    for p in range(packages):
        # the first packages have many dependencies, and most are on a few that many depend on, which stand at the end
        count = dice.choice([12, 16, 24] if p < packages // 20 + 1 else [0, 1, 2, 3, 4, 5, 6, 8, 12])
        count = min(count, packages - 1 - p)
        ends.append(sorted({packages - 1 - int((packages - 1 - p) * dice.random() ** 3) for _ in range(count)}))
        optional = {e for e in ends[p] if dice.random() < 0.3}
        features.append((optional, crate_features(dice, [names[e] for e in ends[p] if e in optional])))
    records = []
    for p in range(packages):
        optional, made = features[p]
        records.append(package(names[p], int(dice.random() < 0.06)))
        for e in ends[p]:
            records.append(crate_dependency(dice, names[e], e, e in optional, sorted(features[e][1])))
        for name, turned_on in made.items():
            records.append(feature(name, turned_on))
    return file(records)


def largest(packages):
    """the largest graph by the limits, with so many packages: 1 MiB, and as many of all as there may be"""
    dice = random.Random(packages)
    made = {
        "default": ["s", "f", "x", "a/s", "b/s", "c?/s", "d?/s"],
        "s": ["f", "a/s", "b/s", "a/x", "c/s", "d/s", "d/x", "c/f"],
        "f": ["x", "a/f", "b/f", "c/f", "d/f", "c/x", "d/x", "d?/f", "dep:d"],
        "x": ["a/x", "b/x", "b/f", "a/s", "c/x", "d/x", "c/s", "d/s", "c?/f"],
    }
    records = []
    for p in range(packages):
        near = [(p + 1 + dice.randrange(8)) % packages for _ in range(3)]
        records += [
            package("%x" % p, int(p % 16 == 3)),
            dependency("a", near[0], defaults=1, asks=["s", "f", "x"]),
            dependency("b", near[1], kind=int(p % 3 == 0), defaults=1, asks=["s", "f"]),
            dependency("c", near[2], optional=1, defaults=1, asks=["s", "x"]),
            dependency("d", dice.randrange(packages), kind=2 * int(p % 5 == 0), optional=1, asks=["f", "x"]),
        ]
        records += [feature(name, turned_on) for name, turned_on in made.items()]
    return file(records)


# ---------------------------------------------------------------------------------------------- the worst of files


def features(count):
    """one package with so many features, whose names have one length and differ at their ends: the worst for finding \
features by an order"""
    name = "the-features-of-one-pa%05d"
    others = spread(count, count)
    return file([package("p")] + [feature(name % f, [name % others[f]]) for f in range(count)])


def asks(count):
    """so many asks of one package with many features: the worst for looking up asks"""
    known = count // 40
    asked = ["f%04x" % k for k in spread(count, known)]
    starts = range(0, count, MAX_STRINGS)
    records = [package("p")] + [feature("f%04x" % f) for f in range(known)] + [package("q")]
    return file(records + [dependency("d", 0, asks=asked[s : s + MAX_STRINGS]) for s in starts])


def names(count):
    """one package with so many dependencies of different names, and values that name them: the worst for finding \
dependencies by an order"""
    known = ["n%04x" % k for k in range(count)]
    named = [known[k] + "?/x" for k in spread(count * 7 // 2, count)]
    dependencies = [dependency(name, 0, optional=1) for name in known]
    return file([package("p"), feature("x"), package("q")] + dependencies + values(named))


def namesakes(count, optional, text):
    """One package with so many dependencies of one name, and about six times as many values of this text."""
    dependencies = [dependency("b", 0, optional=int(optional(k))) for k in range(count)]
    return [package("p"), feature("x"), package("q")] + dependencies + values([text] * (count * 6 + count // 10))


def switches(count):
    """so many dependencies of one name, of which the last one is optional, and values `dep:b`: the worst for a value \
that looks at each dependency of its name"""
    return file(namesakes(count, lambda k: k == count - 1, "dep:b"))


def rows(count):
    """so many optional dependencies of one name, and values `b/x` that make nearly as many rows as there may be: the \
worst for writing them"""
    dependencies = [dependency("b", 0, optional=1) for _ in range(count)]
    named = ["b/x"] * ((MAX_ROWS - count) // (2 * count))
    return file([package("p"), feature("x"), package("q")] + dependencies + values(named))


def many(count):
    """so many dependencies of one name, all optional, and values `b/x`: as many rows as values x dependencies x 2 \
make, the worst for counting them"""
    return file(namesakes(count, lambda k: True, "b/x"))


def late(count):
    """the same with a last value that refers to nothing, which is told before the rows: the worst for a count that \
ends early"""
    return file(namesakes(count, lambda k: True, "b/x") + [feature("late", ["b/y"])])


def same_hash(count):
    """Names of five letters with the same hash in package 0."""
    letters = [ord(c) for c in "abcdefghijklmnopqrstuvwxyzABCDEFGHIJKLMNOPQRSTUVWXYZ0123456789_"]
    tails = {}
    for d in letters:
        for e in letters:
            tails.setdefault((d * FACTOR + e) % BUCKETS, []).append(bytes([d, e]))
    found = []
    for a, b, c in ((a, b, c) for a in letters for b in letters for c in letters):
        start = ((a * FACTOR + b) * FACTOR + c) * FACTOR * FACTOR
        found += [(bytes([a, b, c]) + tail).decode() for tail in tails.get((7 - start) % BUCKETS, [])]
        if len(found) >= count:
            return found[:count]
    sys.exit("too few names of one hash")


def products(count):
    """so many dependencies of one name on a package with as many features in one bucket of the library's index, and \
three times as many values that name both: the worst for values x dependencies x features"""
    known = same_hash(count)
    records = [package("p")] + [feature(name) for name in known] + [package("q")]
    records += [dependency("b", 0) for _ in range(count)]
    return file(records + values(["b/" + known[k] for k in spread(3 * count, count)]))


def ends(count, groups):
    """Dependencies of one name on so many packages that have as many features each as the limit allows, and so many
    values that name these."""
    known = ["%x" % f for f in range((MAX_FEATURES - 700) // groups)]
    records = []
    for _ in range(groups):
        records += [package("p")] + [feature(name) for name in known]
    records += [package("q")] + [dependency("b", e) for e in range(groups)]
    return file(records + values(["b/" + known[k] for k in spread(count, len(known))]))


def few_ends(count):
    """so many values that name a feature of 31 packages, to which the dependencies of one name lead: the worst for \
looking up each end of a group again"""
    return ends(count, 31)


def many_ends(count):
    """the same with 4,000 packages of few features: the worst for values x dependencies without a memory of what all \
ends have"""
    return ends(count, 4_000)


# the kinds, with the sizes in which each is written
KINDS = {
    workspace: [25, 50, 100, 200, 400, 800, 1_300],
    largest: [1_024, 2_048, 4_096],
    features: [4_096, 8_192, 16_384],
    asks: [40_000, 80_000, 160_000],
    names: [4_096, 8_192, 16_384],
    switches: [128, 256, 512, 4_096, 8_192, 16_384],
    rows: [1_024, 2_048, 4_096],
    many: [128, 256, 512, 4_096, 8_192, 16_384],
    late: [128, 256, 512, 4_096, 8_192, 16_384],
    products: [64, 128, 256, 4_096, 8_192, 15_784],
    few_ends: [30_000, 60_000, 120_000],
    many_ends: [30_000, 60_000, 120_000],
}


def wanted(arguments):
    """The functions and sizes that the arguments name, or all."""
    kinds = {make.__name__: make for make in KINDS}
    for argument in arguments or kinds:
        name, _, size = argument.partition("=")
        if name not in kinds:
            sys.exit("no kind %s: there are %s" % (name, ", ".join(kinds)))
        for one in [int(size)] if size else KINDS[kinds[name]]:
            yield kinds[name], one


def main():
    if len(sys.argv) < 2:
        sys.exit(__doc__)
    folder = sys.argv[1]
    os.makedirs(folder, exist_ok=True)
    lines = []
    for make, size in wanted(sys.argv[2:]):
        data = make(size)
        name = "%s-%d.graph" % (make.__name__, size)
        with open(os.path.join(folder, name), "wb") as out:
            out.write(data)
        print("%-22s %9d bytes" % (name, len(data)))
        lines.append("\t".join([name, make.__name__, str(size), make.__doc__]))
    with open(os.path.join(folder, "list.txt"), "w") as out:
        out.write("\n".join(lines) + "\n")


main()
