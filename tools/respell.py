#!/usr/bin/env python3
"""Respells the repository's own definitions, lemmas, fields and constructors: words in snake case, a dash only between two names.

usage: python3 tools/respell.py            in the repository, once, right after the toolchain's own port script
       python3 tools/respell.py --map      prints old and new names and writes nothing
       python3 tools/respell.py --docs F.. respells whole words of camel case or with a dash in other files by the kept table

The table that the run made is kept in tools/respelled.tsv, so that other pages can be respelled by it later.
"""

import os
import re
import sys

HERE = os.path.dirname(os.path.realpath(__file__))
ROOT = os.path.dirname(HERE)
TABLE = os.path.join(HERE, "respelled.tsv")
DECLARED = re.compile(r"^((?:abbrev |unfoldable |opaque |pub )*)([^\s:(){}=.]+) :(?=\s|$)(.*)")
TYPE = re.compile(r"^(?:pub )?(?:data|record) ([^\s:(){}]+)")
NESTED = re.compile(r"^  ((?:abbrev |unfoldable |opaque |pub )*)([^\s:(){}=.]+) :(?=\s|$)(.*)")
MODULE = re.compile(r"^(?:pub )?module ")
COMMENT = {".antt": re.compile(r"(^|\s)--(\s|$)"), ".rt": re.compile(r"(^|\s)//")}
MEMBER = re.compile(r"^  (?:pub )?([^\s:(){}=.]+(?: [^\s:(){}=.]+)*) :(?=\s)")
SPLIT = re.compile(r"([\s(){}\[\].,;:|⌜⌝`]+)")
CAMEL = re.compile(r"(?<=[a-z0-9])(?=[A-Z])")
IMPORT = re.compile(r"^(?:ghost )?use ([^\s{]+)\.\{([^}]*)\}", re.M)
FUNCTION = re.compile(r"\bfn ([a-z_0-9]+)")

# Words of the library that stand in names of lemmas beside a dash.
LIBRARY = set("""length take drop map sum max min fold get set insert remove replicate reverse append ap suc zero mul add sub div mod pow cond not and or if filter all any
concat zip sum_by count_by swap find position""".split())
# Where the plain rule would make two names one, or a word that is taken.
BY_HAND = {
    "cover_all": "cover_all_lem",
    # parameters and names inside one definition or proof
    **{n: CAMEL.sub("_", n).lower() for n in "ofNode ofLeaf ofStage fitNode fitLeaf closedAt alphaMin wholeEnds sheetVal alphaDecay velocityDecay".split()},
    **{n: n.replace("-", "_") + "_lem" for n in """ends-each entries-left float-bytes last-from leaf-radius no-ticks node-charge of-kind ranges-each record-bytes speeds-of
    is-nan nan-bits places-of rows-from chains-in charged-tree ends-range leaf-charge need-left of-lengths""".split()},
}


def files(endings=(".antt", ".rt")):
    for folder, dirs, names in os.walk(os.path.join(ROOT, "crates")):
        dirs[:] = sorted(d for d in dirs if d != "out")
        for n in sorted(names):
            if n.endswith(endings):
                yield os.path.join(folder, n)


def read(path):
    with open(path, encoding="utf-8") as f:
        return f.read()


def of_function(path):
    """Whether the file stands in the proofs of one function, whose names follow the function's goals."""
    parts = os.path.relpath(path, ROOT).split(os.sep)
    return parts[2] == "proofs" and len(parts) > 4


def snake(part):
    if part[:1].isupper() or not part.isascii() or not CAMEL.search(part):
        return part
    return "_".join(w[:1].lower() + w[1:] for w in CAMEL.split(part))


def collect():
    """Names of definitions and lemmas, members, and the words that are names of definitions."""
    tops, members, words, rust = {}, set(), set(LIBRARY), set()
    for path in files():
        text = read(path)
        if path.endswith(".rt"):
            rust |= set(FUNCTION.findall(text))
            continue
        lower = of_function(path)
        inside = module = False
        for line in text.split("\n"):
            m = TYPE.match(line) or TYPE.match(line[2:])
            if m:
                inside = True
                words.add(m.group(1))
                continue
            if MODULE.match(line):
                module, inside = True, False
                continue
            m = DECLARED.match(line)
            if not m and line[:1].strip():
                module = module and not line.strip()
            if not m and module and not inside:
                m = NESTED.match(line)
            if m:
                inside = False
                name = m.group(2)
                if not lower:
                    tops[name] = m.group(1)
                    if "-" not in name:
                        words.add(snake(name))
                continue
            if line.strip() and not line.startswith(" "):
                inside = False
            if inside:
                m = MEMBER.match(line)
                if m:
                    members |= set(m.group(1).split())
    return tops, members, words, rust


def library_names():
    """Names that some file takes from the library: they keep its spelling."""
    own = {c for c in os.listdir(os.path.join(ROOT, "crates"))}
    taken = set()
    for path in files():
        for m in IMPORT.finditer(read(path)):
            parts = m.group(1).split(".")
            if not (parts[0] == "Rattle" and parts[1] in own):
                taken |= set(SPLIT.split(m.group(2)))
    return taken


def respelled(name, words):
    if name in BY_HAND:
        return BY_HAND[name]
    parts = [snake(p) for p in name.split("-")]
    new = parts[0]
    for left, right in zip(parts, parts[1:]):
        joined = new.split("-")[-1]
        new += ("-" if joined in words and right in words else "_") + right
    return new


def table():
    tops, members, words, rust = collect()
    taken = library_names()
    names = {n for n in [*tops, *members, *BY_HAND] if n not in taken and (n in BY_HAND or re.search(r"[a-z0-9][A-Z]|[^-]-[^-]", n))}
    return {n: r for n in sorted(names) for r in [respelled(n, words)] if r != n}, tops, members, rust


def turn_line(line, names, members, ending):
    """The line with its names respelled: behind a dot that follows a value only fields, and in a comment no words with a dash."""
    cut = COMMENT[ending].search(line)
    code, comment = (line[: cut.start()], line[cut.start() :]) if cut else (line, "")
    parts = SPLIT.split(code)
    for i in range(0, len(parts), 2):
        t = parts[i]
        if t not in names:
            continue
        dot = i and parts[i - 1].endswith(".")
        module = dot and parts[i - 1] == "." and parts[i - 2][:1].isupper()
        if not dot or module or t in members:
            parts[i] = names[t]
    said = [t if "-" in t else names.get(t, t) for t in SPLIT.split(comment)]
    return "".join(parts) + "".join(said)


def turn(text, names, members, ending):
    return "\n".join(turn_line(l, names, members, ending) for l in text.split("\n"))


def clashes(names, tops, members):
    """Where a new name is a word that some file already has, or two old names become one."""
    said = []
    back = {}
    for old, new in names.items():
        back.setdefault(new, []).append(old)
    for new, olds in sorted(back.items()):
        if len(olds) > 1:
            said.append(f"{' and '.join(olds)} become {new}")
    where = {}
    for path in files():
        for t in set(SPLIT.split(read(path))):
            if t in back:
                where.setdefault(t, []).append(os.path.relpath(path, ROOT))
    for t, paths in sorted(where.items()):
        said.append(f"{' and '.join(back[t])} becomes {t}, which stands in {len(paths)}: {' '.join(paths[:4])}")
    return said


def main(argv):
    if argv[:1] == ["--docs"]:
        names = dict(line.split("\t") for line in read(TABLE).splitlines())
        for path in argv[1:]:
            old = read(path)
            new = re.sub(r"(?<![\w'/.-])[A-Za-z][\w'-]*(?![\w'/-])", lambda m: names.get(m.group(0), m.group(0)), old)
            if new != old:
                with open(path, "w", encoding="utf-8") as f:
                    f.write(new)
        return 0
    names, tops, members, rust = table()
    if argv == ["--map"]:
        for old, new in names.items():
            print(f"{old}\t{new}")
        for line in clashes(names, tops, members):
            print("clash: " + line)
        for new in sorted(set(names.values()) & rust):
            print("function: " + new)
        return 0
    for path in files():
        old = read(path)
        new = turn(old, names, members, os.path.splitext(path)[1])
        if new != old:
            with open(path, "w", encoding="utf-8") as f:
                f.write(new)
    with open(TABLE, "w", encoding="utf-8") as f:
        f.writelines(f"{old}\t{new}\n" for old, new in names.items())
    print(f"respell: {len(names)} names")
    return 0


if __name__ == "__main__":
    raise SystemExit(main(sys.argv[1:]))
