#!/usr/bin/env python3
"""Counts the places in src/ that an older language would have asked for: run at the top of the repository."""
import collections
import glob
import re

SOURCES = sorted(glob.glob('crates/*/src/**/*.rt', recursive=True))


def lines():
    """Each line of code, with its place; comments, clauses and ghost lines are left out."""
    for name in SOURCES:
        for at, line in enumerate(open(name), 1):
            if not re.match(r'\s*(//|ensures|requires|ghost)', line):
                yield f'{name}:{at}', line.strip()


def matching(pattern):
    return [f'{place}  {line}' for place, line in lines() if re.search(pattern, line)]


def named_twice():
    """Functions outside traits and their impls whose name stands in two crates or more, but for new, main and run."""
    found = collections.defaultdict(list)
    for name in SOURCES:
        block = ''
        for at, line in enumerate(open(name), 1):
            opened = re.match(r'(pub )?(impl|trait)\b', line)
            if opened:
                block = line
            if line.startswith('}'):
                block = ''
            made = re.search(r'\bfn (\w+)', line)
            if made and ' for ' not in block and 'trait' not in block:
                found[made.group(1)].append(f'{name}:{at}')
    return [f'{fn}  {" ".join(places)}' for fn, places in found.items()
            if len({p.split("/")[1] for p in places}) > 1 and fn not in ('new', 'main', 'run')]


def clauses():
    """Clauses that stand in three functions or more."""
    found = collections.Counter()
    for name in SOURCES:
        for line in open(name):
            clause = re.match(r'\s*(?:ensures|requires)\s*(?:\w+ )?\{(.*)\}', line)
            if clause:
                found[clause.group(1).strip()] += 1
    return [f'{n}  {clause}' for clause, n in found.items() if n > 2]


def other_loops():
    return [x for x in matching(r'\bfor .* in |\bwhile\b|\bloop\b') if 'impl' not in x and '..' not in x.split('  ')[1]]


# What is counted: lines that have a pattern, or the places that a function finds.
COUNTS = {
    '1 enums': r'\benum \w',
    '1 results of results, options of options': r'(Result|Option)<(Result|Option)<',
    '1 numbers for kinds': r'-> u8|const ABSENT',
    '2 functions of one name in two crates': named_twice,
    '2 pairs that check a page': r'fn check_\w+',
    '3 loops over a range': r'\bfor .* in .*\.\.',
    '3 other loops': other_loops,
    '4 matches that only hand a case on': r'(Some\((\w+)\) => Some\(\2\)|Ok\((\w+)\) => Ok\(\3\)|Ok\(\(\)\) => Ok\(\(\)\))',
    '4 text put together by format!': r'format!',
    '4 conversions that are no impl of From or TryFrom': r'fn policy_named|fn new\(n: Numbers\)',
    '5 clauses of three functions or more': clauses,
    '5 settings and pages handed on together': r'^pages: &\[u32\],|settings: Settings, pages',
    '6 fields that are tables': r'^(pub )?\w+: Vec<',
    '7 steps chosen by a flag or a name': r'match name|if self\.renewal',
}

for title, sought in COUNTS.items():
    found = matching(sought) if isinstance(sought, str) else sought()
    print(f'{title}: {len(found)}')
    for place in found:
        print(f'    {place}')
answers = glob.glob('crates/*/proofs/**/Answers.antt', recursive=True)
lemmas = sum(len(re.findall(r'^ *(?:pub )?[\w≡≢-]+ : ', open(f).read(), re.M)) for f in glob.glob('crates/*/proofs/*.antt'))
print(f'8 files of answers: {len(answers)}; answers: {sum(len(re.findall(r"^pub [^=]*: goal", open(f).read(), re.M)) for f in answers)}; lemmas in proofs/: {lemmas}')
