"""Gathers the contracts of the exported functions, and every definition that they rest on, from the sources.

`contracts.py` alone prints them. bindings/stage puts them into the staged folder as CONTRACTS.txt.
"""

import re
import sys
from pathlib import Path

ROOT = Path(__file__).resolve().parent.parent.parent
RULE = "=" * 100
ARCHIVES = ("capi", "records")

HEAD = """\
Jorghipa {version}: what the exported functions promise

First every function that the archives export, with its contract; then the definitions that the contracts cite, and those that
these cite in turn, file by file as the prover read them, the lowest crates first.

`ensures {{ P }}` says that P holds for every argument, where `result` is the returned value. `x.now` is what stands at a shared
reference x; `x.old` is what stands at x when the call begins, `x.new` what stands there when it ends. A slice `&[T]` is in C a
pointer and a count, `&mut T` a pointer. What is used from Rattle.std, Prim, mathlib and lib belongs to the kit: whole numbers,
lists, equality; Rattle.std.specs.Float and lib.Ieee have IEEE 754's floats.
The headers say the same in words; docs/SCOPE.md says it in full.
"""

USE = re.compile(r"^(?:ghost )?use Rattle\.(\w+)\.specs\.([\w.-]+?)(?:\.\{(.*)\}| as (\S+?))?;?$", re.M)
MARK = "#[unsafe(no_mangle)]"
EXPORTED = re.compile(rf"((?:^//.*\n)*)^{re.escape(MARK)}\n(pub extern \"C\" fn \w+[\s\S]*?)\n\{{\n", re.M)


def crates():
    """The crates in their order, each above those that it stands on."""
    lines = (ROOT / "crates.txt").read_text().splitlines()
    return [line.split(":")[0].split()[0] for line in lines if ":" in line and not line.startswith("#")]


def exported():
    """(archive, text, what it cites) of every function that C can call: those of the archive's own crate, NAME_c."""
    for archive in ARCHIVES:
        sources = sorted((ROOT / "crates" / f"{archive}_c" / "src").glob("*.rt"))
        if not sources:
            sys.exit(f"crates/{archive}_c has no sources")
        for path in sources:
            source = path.read_text()
            found = EXPORTED.findall(source)
            if len(found) != source.count(MARK):
                sys.exit(f"{path}: an exported function that is not in the form that is looked for")
            for comment, text in found:
                yield archive, comment + text, cited(source, set(re.split(r"[\s()⌜⌝{}λ,;]+", text)))


def cited(source, words=None):
    """The (crate, module) pairs that a source uses; with words, only those of which a name, or `alias.name`, is among them."""
    heads = None if words is None else words | {word.split(".")[0] for word in words}
    ours, found = crates(), []
    for crate, module, names, alias in USE.findall(source):
        offered = {name.split(" as ")[-1].strip() for name in names.split(",")} if names else {alias}
        if crate in ours and (heads is None or offered & heads):
            found.append((crate, module))
    return found


def closure(first):
    """All specs files and declared types that these lead to."""
    files, types, left = set(), set(), list(first)
    while left:
        crate, module = left.pop()
        if module.startswith("declared."):
            path, name = re.match(r"declared\.(.*?)\.([A-Z]\w*)", module).groups()
            types.add((crate, path, name))
        elif (crate, module) not in files:
            files.add((crate, module))
            left += cited(specs(crate, module).read_text())
    return files, types


def specs(crate, module):
    return ROOT / "crates" / crate / "specs" / (module.replace(".", "/") + ".antt")


def declared(crate, module, name):
    """The text of a struct or an enum, with the comment before it."""
    source = (ROOT / "crates" / crate / "src" / (module.replace(".", "/") + ".rt")).read_text()
    pattern = rf"((?:^//.*\n)*(?:^#\[.*\n)*^pub (?:struct|enum) {name}(?:<[^>\n]*>)? \{{[\s\S]*?^\}}\n)"
    found = re.search(pattern, source, re.M)
    if not found:
        sys.exit(f"crates/{crate}/src/{module}: no type {name} in the form that is looked for")
    return found.group(1)


def order(crate, node="Lib", above=""):
    """The specs files of a crate in the order in which it, and each module of it, lists them."""
    for name in re.findall(r"^pub mod (\S+)", specs(crate, node).read_text(), re.M):
        yield above + name
        yield from order(crate, above + name, above + name + ".")


def text(version):
    functions = list(exported())
    parts = [HEAD.format(version=version)]
    for archive in ARCHIVES:
        mine = [contract for crate, contract, _ in functions if crate == archive]
        parts.append(f"{RULE}\nlib{archive}.a: {len(mine)} functions\n{RULE}\n\n" + "\n\n".join(mine) + "\n")
    files, types = closure(pair for _, _, cites in functions for pair in cites)
    for crate in crates():
        mine = [module for module in order(crate) if (crate, module) in files] if crate in {c for c, _ in files} else []
        shapes = sorted(t for t in types if t[0] == crate)
        if mine or shapes:
            parts.append(f"{RULE}\ncrate {crate}\n{RULE}\n")
        if shapes:
            parts.append("\n".join(declared(*shape) for shape in shapes))
        for module in mine:
            path = specs(crate, module)
            parts.append(f"---- {path.relative_to(ROOT)}\n\n" + path.read_text())
    return "\n".join(parts)


if __name__ == "__main__":
    sys.stdout.write(text("of this repository"))
