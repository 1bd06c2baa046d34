#!/usr/bin/env python3
"""edits_report.py [--jobs N] [CRATE[/LABEL[/NAME]]..]: says of each wrong program of the must-fail edits whether it is refused for what it changes.

Several wrong programs may stand in one .edit file, each under its comment, and rt says only that the file is refused. This applies
each program by itself, in a copy of the repository, checks the function that it changes, and says one of

    fact      an answer that is written for the function fails where its names stand, or a goal is shown false
    unfound   no name is gone, and the check does not find a fact any more that it found alone before the edit
    renamed   the change gave a goal or a test another name; with the answers renamed in step a fact fails, as above
    shape     names of the proof are gone and nothing more is known: the edit shows nothing of the contract
    carried   only for another function's sake
    proved    the function is still proved; then the whole crate is checked, and what fails there is printed
    bad       an `old:` text does not stand once in its file, or the text does not compile

A program that changes a definition, or a line outside every function, is tried on the whole crate. The last line counts; the
exit status is 1 unless each is one of the first three. A goal left open beside a name that is gone is no fact: the answer may only
have lost its name. Run it when every crate is proved: it begins with what `rt check` kept.
"""
import os
import re
import shutil
import subprocess
import sys
import tempfile
from concurrent.futures import ThreadPoolExecutor
from queue import Queue

FN = re.compile(r'^( *)(?:pub )?(?:const )?(?:extern "C" )?fn (\w+)', re.M)
IMPL = re.compile(r'^impl(?:<[^>]*>)? ([^{\n]+?)(?: where .*)? \{', re.M)
ERROR = re.compile(r'^(?:so far: )?(?:\./)?(\S+?\.(?:antt|rt)):(\d+):\d+: error: (.*)$', re.M)
OPEN = re.compile(r'^note: (?:\./)?(\S+?\.rt):\d+:\d+: it is not (?:proved|known) (.*)$', re.M)
NAMES = re.compile(r'has no field|is not in scope|has no `|no such (?:goal|name)|that can be named from here|\(nearest: ')
MISSING = re.compile(r'(?:has no (?:field )?|`goal\.)`?([\w+-]+)`')
GOAL = re.compile(r'\(`([^`]+)`\)')
CARRIED = re.compile(r'was not admitted|were not admitted|was rejected|were rejected|this file exports no')

ORDER = ['bad', 'fact', 'renamed', 'unfound', 'shape', 'carried', 'proved']


def read(path):
    with open(path, encoding='utf8') as f:
        return f.read()


def programs(edit):
    """[(name, [(file, old, new)])]: a comment behind a replacement begins the next program."""
    out, file, old, name, open_ = [], None, '', '', True
    for line in read(edit).split('\n'):
        if line.startswith('#'):
            if open_:
                name, open_ = line[1:].strip(), False
                out.append([name, []])
            elif not out[-1][1]:
                out[-1][0] = line[1:].strip() if line.startswith('# ') and ': ' in line else out[-1][0]
        elif line.startswith('file: '):
            file = line[6:]
        elif line.startswith('old: '):
            old = line[5:]
        elif line.startswith('new:'):
            if not out:
                out.append([os.path.basename(edit), []])
            out[-1][1].append((file, old, line[4:].removeprefix(' ')))
            open_ = True
    return [(n, r) for n, r in out if r]


def function_at(text, at):
    """The function around an offset, as [Type,] name; None outside every function."""
    end = text.find('\n', at)
    before = [k for k in FN.finditer(text) if k.start() <= (end if end >= 0 else at)]
    if not before:
        return None
    k = before[-1]
    if re.search(r'^' + k.group(1) + r'\}', text[k.start():at], re.M):
        return None                          # it ended before
    name = [k.group(2)]
    impl = [i for i in IMPL.finditer(text) if i.start() < k.start()] if k.group(1) else []
    return [impl_name(impl[-1].group(1))] + name if impl else name


def impl_name(head):
    """What the prover calls an impl: `From<bool> for Verdict` is VerdictFromBool, an impl of a type's own the type."""
    trait, _, of = head.rpartition(' for ')
    words = re.findall(r'\w+', (of.split('<')[0] if not trait else of + ' ' + trait).replace('()', ' Unit '))
    return ''.join(word[0].upper() + word[1:] for word in words)


def module_of(file):
    """src/a/b.rt -> [a, b]; src/lib.rt and src/main.rt -> []"""
    rel = file.removeprefix('src/').removesuffix('.rt')
    return [] if rel in ('lib', 'main') else rel.split('/')


def check(folder, only):
    words = ['rt', 'check', '--jobs', '1'] + (['--only', only] if only else [])
    return subprocess.run(words, cwd=folder, stdout=subprocess.PIPE, stderr=subprocess.STDOUT, text=True, errors='replace').stdout


def verdict(said):
    """(kind, words, names that are gone, goals left open) of what a check said."""
    errors = ERROR.findall(said)
    facts = [f'{f}:{l}: {x}' for f, l, x in errors if not NAMES.search(x) and not CARRIED.search(x)]
    opened = OPEN.findall(said)
    false = [f'{f}: {x}' for f, x in opened if 'allow values at which' in x]
    gone = sorted({n for _, _, x in errors if NAMES.search(x) for n in MISSING.findall(x)})
    goals = [n for _, x in opened for n in GOAL.findall(x)]
    bad = re.search(r'.*error\[[\w-]+\].*', said)
    if bad:
        return 'bad', bad[0], gone, goals
    if facts or false:
        return 'fact', (facts + false)[0], gone, goals
    if any(NAMES.search(x) for _, _, x in errors):
        return 'shape', next(x for _, _, x in errors if NAMES.search(x)), gone, goals
    if opened:
        return 'unfound', f'{opened[0][0]}: {opened[0][1]}', gone, goals
    if errors or re.search(r'^fn .*: (not proved|no proof)', said, re.M):
        return 'carried', (ERROR.search(said) or re.search(r'^fn .*: (?:not proved|no proof).*', said, re.M))[0], gone, goals
    return 'proved', said.strip().split('\n')[-1], gone, goals


def tests_of(names):
    """The tests that names of goals speak of: returns-then-d-ge27 has d-ge27."""
    return [m for n in names for m in re.findall(r'-(?:then|else)-(.+?)(?:-clause-.*)?$', n)]


def renamed(folder, answers, gone, goals, kept):
    """Renames in the answers each test whose name is gone to one that a goal has now; True if something was renamed."""
    old = [m for m in tests_of(gone) + [n[3:] for n in gone if n.startswith('if-')] if m]
    new = tests_of(goals)
    done = False
    for path in answers:
        if not os.path.isfile(path):
            continue
        text = read(path)
        kept.setdefault(path, text)
        for a in dict.fromkeys(old):
            same = [b for b in dict.fromkeys(new) if b != a and b.split('-')[0] == a.split('-')[0]] or [b for b in dict.fromkeys(new) if b != a]
            if same:
                text = re.sub(r'(?<=-)' + re.escape(a) + r'(?![\w])', lambda _: same[0], text)
        if text != read(path):
            done = True
            with open(path, 'w', encoding='utf8') as f:
                f.write(text)
    return done


def one(room, crate, replaced):
    folder, kept, only = f'{room}/crates/{crate}', {}, set()
    try:
        for file, old, new in replaced:
            path = f'{folder}/{file}'
            text = read(path)
            kept.setdefault(path, text)
            if text.count(old) != 1:
                return 'bad', f'{file}: {text.count(old)} times: {old}'
            name = function_at(text, text.index(old)) if file.startswith('src/') else None
            only.add('::'.join([crate] + module_of(file) + name) if name else '')
            with open(path, 'w', encoding='utf8') as f:
                f.write(text.replace(old, new))
        if '' not in only:
            told = []
            for it in sorted(only):
                kind, words, gone, goals = verdict(check(folder, it))
                answers = [f'{folder}/proofs/{"/".join(it.split("::")[1:])}/{n}.antt' for n in ('Answers', 'Invariants')]
                if kind == 'shape' and renamed(folder, answers, gone, goals, kept):
                    again = verdict(check(folder, it))
                    kind, words = ('renamed', again[1]) if again[0] == 'fact' else (again[0], again[1])
                told.append((kind, words))
            best = min(told, key=lambda it: ORDER.index(it[0]))
            if best[0] != 'proved':
                return best
        kind, words = verdict(check(folder, ''))[:2]
        return (kind if '' in only else 'proved'), words
    finally:
        for path, text in kept.items():
            with open(path, 'w', encoding='utf8') as f:
                f.write(text)


def main():
    words = sys.argv[1:]
    jobs = int(words[words.index('--jobs') + 1]) if '--jobs' in words else 2
    asked = [it for i, it in enumerate(words) if not it.startswith('--') and (not i or words[i - 1] != '--jobs')]
    rows = []
    for crate in sorted(os.listdir('crates')):
        folder = f'crates/{crate}/must-fail'
        for n in sorted(os.listdir(folder)) if os.path.isdir(folder) else []:
            label = n.removesuffix('.edit')
            if n.endswith('.edit') and (not asked or crate in asked or f'{crate}/{label}' in asked):
                rows += [(crate, label, name, replaced) for name, replaced in programs(f'{folder}/{n}')]
            elif n.endswith('.edit'):
                wanted = [it.split('/')[2] for it in asked if it.startswith(f'{crate}/{label}/')]
                rows += [(crate, label, name, it) for name, it in programs(f'{folder}/{n}') if name.split(':')[0] in wanted]
    top, rooms = tempfile.mkdtemp(prefix='edits-'), Queue()
    try:
        for i in range(jobs):
            shutil.copytree('crates', f'{top}/{i}/crates', symlinks=True)
            shutil.copy('crates.txt', f'{top}/{i}/crates.txt')
            rooms.put(f'{top}/{i}')

        def tried(row):
            room = rooms.get()
            try:
                kind, said = one(room, row[0], row[3])
            finally:
                rooms.put(room)
            print(f'{kind:8} {row[0]}/{row[1]}: {row[2][:60]}  ({said[:150]})', flush=True)
            return kind

        with ThreadPoolExecutor(jobs) as pool:
            kinds = list(pool.map(tried, rows))
    finally:
        shutil.rmtree(top, ignore_errors=True)
    print(', '.join(f'{kinds.count(k)} {k}' for k in sorted(set(kinds))))
    sys.exit(0 if set(kinds) <= {'fact', 'unfound', 'renamed'} else 1)


if __name__ == '__main__':
    main()
