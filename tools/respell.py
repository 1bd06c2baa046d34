#!/usr/bin/env python3
"""Respells the repository's own definitions and lemmas: words in snake case, as `boxGap` to `box_gap` and `gap-plus` to `gap_plus`.

usage: tools/respell.py            at the top of the repository, once, on what port.py left
       tools/respell.py --table    prints the table of names and changes nothing

It turns names that a file of specs/ or proofs/ declares, in .antt and .rt files, in the lines of must-fail edits and in the code
spans of pages. Names of src/, of Rattle's library and those that Rattle makes for proofs keep their spelling. A lemma that would
fall together with a definition ends in `_lem`. A type at the head of a name keeps its dash.
"""
import collections
import glob
import re
import sys

WORD = re.compile(r'[^\s(){}.;,@"«»`|\[\]:/]+|::|.', re.S)
NAME = r'[^\s(){}.;,@"«»:]+'
DECLARED = re.compile(
    r"(?m)^( *)((?:pattern |unfoldable |abbrev |pub |axiom |ruleset )*)(" + NAME + r")((?: \{[^{}\n]*\})*) :(?= |$)"
)
OURS = re.compile(r"Rattle\.(\w+)")


def snake(name):
    head, dash, rest = name.partition("-")
    if dash and head[:1].isupper() and len(head) > 1 and not head.isupper():
        return head + "-" + snake(rest)
    # a dash between two words; a minus or an arrow of a name stays
    name = re.sub(r"(?<=[\w'′²³])-(?=[\w¹²½∞])", "_", name)
    if name[:1].islower() or not name[:1].isalpha():
        name = re.sub(r"(?<=[a-z0-9'])([A-Z])(?=[a-z0-9_'²]|$|[^\w])", lambda m: "_" + m[1].lower(), name)
        name = re.sub(r"_([A-Z])(?=[a-z])", lambda m: "_" + m[1].lower(), name)
    return name


def paths():
    for part in ("specs", "proofs"):
        for p in sorted(glob.glob(f"crates/*/{part}/**/*.antt", recursive=True)):
            if "/out/" not in p:
                yield p


def read(p):
    with open(p, encoding="utf-8", newline="") as f:
        return f.read()



def code_of(text):
    return re.sub(r"--[^\n]*", "", text)


def made_here(text):
    """The names of a proof file that Rattle asks for: those at a type of the function's own module, and the proof itself."""
    names = set(re.findall(r"(?m)^(?:abbrev )?(?:pub )?(\S+) :\s+(?:tie|goal)\.", text))
    names |= set(re.findall(r"(?m)^pub (\S+[-_]spec) :", text))
    return names


def imported(text, crates):
    """The names that a file takes from Rattle's library."""
    out = set()
    for path, names in re.findall(r"(?:^|\n)\s*(?:pub )?(?:ghost )?use ([^\s{;]+)\.\{([^}]*)\}", text):
        crate = OURS.match(path)
        if crate and crate[1] in crates:
            continue
        for it in names.split(","):
            it = it.strip()
            out.add(it.split(" as ")[-1].strip())
            out.add(it.split(" as ")[0].strip())
    return out


def table(crates):
    kinds = collections.defaultdict(set)
    for p in paths():
        text = read(p)
        made = made_here(text)
        for m in DECLARED.finditer(code_of(text)):
            if m[3] not in made:
                kinds[m[3]].add(m[2].strip())
    turned = {}
    for name in kinds:
        new = snake(name)
        if new != name:
            turned[name] = new
    # A name meets another where that is declared, or stands in a file that has both.
    meets = {old for old, new in turned.items() if new in kinds}
    for p in paths():
        tokens = set(re.findall(r"(?<![\w.'-])" + NAME + r"(?!\.)", code_of(read(p))))
        meets |= {t for t in tokens if t in turned and turned[t] in tokens}
    by_new = collections.defaultdict(list)
    for old, new in turned.items():
        by_new[new].append(old)
    bare = {}
    for new, olds in by_new.items():
        # a definition comes before a lemma
        olds.sort(key=lambda it: ("-" in it, it))
        for i, old in enumerate(olds):
            if not i and old in meets and "-" not in old and new in kinds:
                bare[new] = new + "_lem"
            elif i or old in meets:
                turned[old] = new + "_lem"
    return turned, bare


def antt(text, turned, keep, bare=()):
    """The text with each name of ours respelled. Those of `bare`, lemmas in the way of a definition, turn where no path goes on."""
    out = []
    tokens = WORD.findall(text)
    comment = False
    for i, t in enumerate(tokens):
        if t == "\n":
            comment = False
        if t.startswith("--") and (not out or out[-1][-1:] in " \n"):
            comment = True
        if t in turned and t not in keep:
            path = []
            j = i - 1
            while j > 0 and tokens[j] == ".":
                path.append(tokens[j - 1])
                j -= 2
            path.reverse()
            is_step = path and path[0] in ("c", "w", "tie", "goal") and all(it == "before" for it in path[1:])
            of_library = path and path[0] in keep
            if is_step or of_library or (comment and "-" in t and not (tokens[i - 1] == "`")):
                out.append(t)
            else:
                out.append(turned[t])
        elif t in bare and t not in keep and not comment and tokens[i - 1] != "." and tokens[i + 1 : i + 2] != ["."]:
            out.append(bare[t])
        else:
            out.append(t)
    return "".join(out)


def spans(text, turned):
    def span(m):
        return "".join(turned.get(t, t) for t in WORD.findall(m[0]))

    return re.sub(r"`[^`\n]+`", span, text)


def main():
    crates = {p.split("/")[1] for p in glob.glob("crates/*/src")}
    turned, bare = table(crates)
    if "--table" in sys.argv:
        for old, new in sorted([*turned.items(), *bare.items()]):
            print(old, new)
        return
    for p in [*paths(), *sorted(glob.glob("crates/*/src/**/*.rt", recursive=True))]:
        text = read(p)
        keep = imported(text, crates) | (made_here(text) if p.endswith(".antt") else set())
        keep -= {n for n in keep if re.search(r"use Rattle\.(?:%s)\.[^\n]*[{ ,]%s[},; ]" % ("|".join(crates), re.escape(n)), text)}
        new = antt(text, turned, keep, bare if p.endswith(".antt") else ())
        if new != text:
            with open(p, "w", encoding="utf-8", newline="") as f:
                f.write(new)
    for p in sorted(glob.glob("crates/*/must-fail/*.edit")):
        text = read(p)
        new = "\n".join(
            antt(l, turned, set()) if l.startswith(("old: ", "new: ")) else l for l in text.split("\n")
        )
        if new != text:
            with open(p, "w", encoding="utf-8", newline="") as f:
                f.write(new)
    for p in ["README.md", "CONTRIBUTING.md", *sorted(glob.glob("docs/*.md"))]:
        text = read(p)
        new = spans(text, turned)
        if new != text:
            with open(p, "w", encoding="utf-8", newline="") as f:
                f.write(new)


if __name__ == "__main__":
    main()
