#!/usr/bin/env python3
"""Lists places in src/ where an older form of code may stand: python3 tools/forms.py [FOLDER], the repository's top by default.

A row is a place to look at, and no verdict: docs/DESIGN-PASS.md says what became of each."""
import collections
import difflib
import itertools
import pathlib
import re
import sys

top = pathlib.Path(sys.argv[1] if len(sys.argv) > 1 else '.')
crates = top / 'crates'
sources = [(f.relative_to(crates), f.read_text()) for f in sorted(crates.glob('*/src/*.rt'))]
of_programs = [(f, text) for f, text in sources if f.parts[0] != 'trials']
KEYWORDS = set('fn let if else for in match return mut self pub'.split())


def code(text):
    """A text without comments and clauses, line for line."""
    return [re.sub(r'^\s*(//|ghost |requires|ensures).*', '', line).split(' //')[0] for line in text.split('\n')]


def show(title, rows):
    print(f'{title}: {len(rows)}')
    for row in rows:
        print('   ', row)


def matching(pattern):
    return [f'{f}:{n} {line.strip()}' for f, text in sources for n, line in enumerate(code(text), 1) if re.search(pattern, line)]


def functions():
    """Each function: where it stands, its name, its parameters' names, what it requires, and its code from `fn` to the end."""
    for f, text in of_programs:
        for m in re.finditer(r'^( *)(?:pub(?:\(crate\))? )?fn (\w+)[^(]*\(([^)]*)\)', text, re.M):
            end = re.compile(r'^' + m.group(1) + r'\}', re.M).search(text, m.end())
            whole = text[m.start():end.end() if end else len(text)]
            names = [p.split(':')[0].replace('mut ', '').strip() for p in m.group(3).split(',') if ':' in p]
            requires = re.findall(r'^\s*requires\s*\w*\s*\{ (.*) \}$', whole, re.M)
            yield f, m.group(2), names, requires, '\n'.join(code(whole))


def shape(text):
    """The tokens of some code, with each name and number in the order in which it comes."""
    seen = {}
    tokens = re.findall(r'\w+|[^\w\s]', text)
    return [seen.setdefault(t, f'${len(seen)}') if re.match(r'\w', t) and t not in KEYWORDS else t for t in tokens]


every = list(functions())
show('1 enums of our own', matching(r'\benum [A-Z]'))
show('1 flags and numbers for kinds', matching(r'\b\w+: (bool|&?mut bool)\b|-> u8\b|\b(kind|number|byte|code): u8\b'))
shapes = [(f'{f} {name}', shape(text)) for f, name, _, _, text in every]
show('2 functions of nearly the same shape',
     [f'{a} ~ {b}' for (a, s), (b, t) in itertools.combinations(shapes, 2)
      if min(len(s), len(t)) > 24 and difflib.SequenceMatcher(None, s, t, autojunk=False).ratio() > 0.92])
show('3 loops that count or move by hand', matching(r'\b(while|loop)\b|\bfor \w+ in [^{]*\.\.|\+= 1;'))
show('4 equality, conversion and printing by hand',
     matching(r'impl (PartialEq|PartialOrd|Ord|Clone|Copy|Debug) for|\bfn (number|numbered|text|place|status|life|mark_\w+)\b'
              r'|None => (None|Err)|Some\((\w+)\) => Ok\(\w+\)'))
show('4 casts', matching(r'\bas (u8|u16|u32|u64|usize)\b'))
facts = collections.defaultdict(set)
together = collections.defaultdict(set)
for f, name, names, requires, _ in every:
    for fact in re.split(r' × ', ' × '.join(requires)):
        facts[f.parts[0], re.sub(r'\b(old|now)\b', '_', fact.strip('() '))].add(name)
    for size in (2, 3, 4):
        for some in itertools.combinations(sorted(set(names)), size):
            together[some].add(f'{f.parts[0]}.{name}')
show('5 facts that three or more functions require',
     [f'{crate}: {fact}: {", ".join(sorted(v))}' for (crate, fact), v in sorted(facts.items()) if fact and len(v) > 2])
often = {k: v for k, v in together.items() if len(v) > 2}
largest = [k for k in often if not any(set(k) < set(other) and often[other] == often[k] for other in often)]
show('5 parameters that stand together in three or more functions',
     [f'{", ".join(k)}: {len(often[k])}: {", ".join(sorted(often[k]))}' for k in sorted(largest, key=lambda k: (-len(often[k]), k))])
show('6 arrays, slices and vectors in structs', matching(r"^    (pub )?\w+: (&'?\w* ?(mut )?)?(\[|Vec<|String).*,$"))
show('6 places in a slice by arithmetic', matching(r'\[[^\]]*[*+][^\]]*\.\.|\.\.[^\]]*[*+-][^\]]*\]'))
show('7 functions by a flag, tables of functions, closures', matching(r'\b\w+: bool[,)]|dyn |fn\(|\bFn(Once|Mut)?\('))
proofs = list(crates.glob('*/proofs/**/*.antt'))
print(f'8 answers: {sum(p.name == "Answers.antt" for p in proofs)} files; invariants: {sum(p.name == "Invariants.antt" for p in proofs)} files;'
      f' lemmas: {sum(p.parent.name == "proofs" for p in proofs)} files; lines: {sum(len(p.read_text().splitlines()) for p in proofs)}')
