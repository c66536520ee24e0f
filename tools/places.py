#!/usr/bin/env python3
"""Counts the places in src/ that docs/DESIGN-PASS.md speaks of: a number for each question, and with -l the places."""
import collections, glob, os, re, sys

os.chdir(os.path.join(os.path.dirname(os.path.abspath(__file__)), '..'))
FILES = sorted(glob.glob('crates/*/src/**/*.rt', recursive=True))
TEXT = {f: open(f).read() for f in FILES}


def lines(pattern, but=None):
    found = []
    for f, t in TEXT.items():
        for n, line in enumerate(t.split('\n'), 1):
            if re.search(pattern, line) and not (but and re.search(but, line)):
                found.append(f'{f}:{n}: {line.strip()}')
    return found


def heads():
    """Each function: file, name, the text from `fn` to its body or its end."""
    for f, t in TEXT.items():
        for m in re.finditer(r'\bfn (\w+)(?=[<(])', t):
            end = re.compile(r'\n\s*\{\n|\{\}?\n|;\n').search(t, m.end())
            yield f, m.group(1), t[m.start():end.start() if end else len(t)]


def repeated_clauses():
    """A requires or ensures, with the names of its references taken out, in three functions or more."""
    seen = collections.defaultdict(list)
    for f, name, head in heads():
        for m in re.finditer(r'(?:requires|ensures)(?: \w+)? \{ (.*) \}', head):
            fact = re.sub(r'\b(self|list|rows|buys|offers|sheet|book|tape|reader)\.(now|old|new|entry)\b', '_', m.group(1))
            seen[fact].append(f'{f} {name}')
    return [f'{len(v)} times: {k[:120]}' for k, v in sorted(seen.items()) if len(v) >= 3]


def length_beside_rows():
    return [f'{f}: {n}' for f, n, h in heads() if re.search(r'rows: &', h.split('requires')[0]) and re.search(r'\blen: usize', h.split('requires')[0])]


def bodies_twice():
    """Functions of one name in two files whose bodies are the same text."""
    seen = collections.defaultdict(list)
    for f, t in TEXT.items():
        for m in re.finditer(r'\n( *)(?:pub(?:\(crate\))? )?(?:const )?fn (\w+)[^{;]*?(?:\n\1 +(?:requires|ensures)[^\n]*)*(?: |\n\1)\{\n(.*?)\n\1\}', t, re.S):
            body = re.sub(r'\s+', ' ', m.group(3)).strip()
            if len(body) > 20:
                seen[body].append(f'{f} {m.group(2)}')
    return [' = '.join(v) for k, v in sorted(seen.items()) if len(v) > 1]


def long_functions():
    found = []
    for f, t in TEXT.items():
        for m in re.finditer(r'\n( *)(?:pub(?:\(crate\))? )?fn (\w+).*?\n\1\}', t, re.S):
            n = m.group(0).count('\n')
            if n > 40:
                found.append(f'{f} {m.group(2)}: {n} lines')
    return found


QUESTIONS = [
    ('1 enums, each to be read for the shape of Option or Result', lambda: lines(r'^\s*(pub(\(crate\))? )?enum ')),
    ('1 functions from an enum to its number or letter', lambda: lines(r'fn (number|letter)\(')),
    ('1 a bool in a signature or a struct', lambda: lines(r': bool\b')),
    ('2 bodies that stand twice', bodies_twice),
    ('2 pairs of functions that differ in a type or a constant', lambda: lines(r'fn (side_of|kind_of|side_byte|kind_byte|side_word|kind_word|is_over|is_side_over|find_in|start_at|row_at)\b')),
    ('3 a number stepped by one', lambda: lines(r'[+-]= 1;|[+-]= 1,')),
    ('3 a for over a range', lambda: lines(r'\bfor \w+ in \S*\.\.')),
    ('3 a while but for while let', lambda: lines(r'\bwhile ', 'while let')),
    ('3 an enumerate', lambda: lines(r'\.enumerate\(\)')),
    ('4 functions that convert, compare or print', lambda: lines(r'fn ([a-z]+_(of|word|byte|digit)|is_on|leads|word|located|is_plain|flat_fault|junk)\b')),
    ('4 a match that hands on what it matched', lambda: lines(r'Some\((\w+)\) => Some\(\1\)|None => None,|Ok\((\w+)\) => Ok\(\2\)|None => 0,|Ok\(_\) => None')),
    ('5 clauses that stand in three functions or more', repeated_clauses),
    ('5 a length beside its rows among the parameters', length_beside_rows),
    ('5 the five terms of an order side by side', lambda: lines(r'\baccount: (\[u8; 8\]|&\'a \[u8\])')),
    ('6 a length in a struct beside its rows', lambda: lines(r'^\s*(pub(\(crate\))? )?(len|used): usize,$')),
    ('6 a read or a write of a row by index', lambda: lines(r'\brows\[(i|at|mid|len)\b')),
    ('7 a trait or a struct that stands for a closure', lambda: lines(r'trait Predicate|impl Predicate|struct Numbered')),
    ('8 answers', lambda: [f'{f}: {l}' for f in sorted(glob.glob('crates/*/proofs/**/Answers.antt', recursive=True)) for l in re.findall(r'^pub .*', open(f).read(), re.M)]),
    ('8 lines of proofs/', lambda: [f for f in glob.glob('crates/*/proofs/**/*.antt', recursive=True) for _ in open(f)]),
    ('- functions over 40 lines', long_functions),
]

for title, ask in QUESTIONS:
    found = ask()
    print(f'{len(found):5}  {title}')
    if '-l' in sys.argv and 'lines of' not in title:
        for line in found:
            print('         ', line)
