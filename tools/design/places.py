#!/usr/bin/env python3
"""Lists the places of docs/DESIGN-PASS.md in crates/*/src and crates/*/proofs, a heading with a count for each kind.

    python3 tools/design/places.py [FOLDER]     the checkout to read, by default this one
"""
import collections
import glob
import re
import sys

ROOT = sys.argv[1] if len(sys.argv) > 1 else '.'
HEAD = re.compile(r'^(?P<indent> *)(?:pub )?(?:extern "C" )?fn (?P<name>\w+)(?:<[^>]*>)?\((?P<parameters>(?:[^()]|\([^()]*\))*)\)', re.M)


def crate_of(path):
    return path.split('/crates/')[1].split('/')[0]


def sources():
    for path in sorted(glob.glob(f'{ROOT}/crates/*/src/*.rt')):
        yield crate_of(path), open(path).read()


def functions(text):
    """Name, parameters and body of each function."""
    for head in HEAD.finditer(text):
        opened = re.compile(r'^ *\{$|\) (?:-> [^\n{]* )?\{$', re.M).search(text, head.end() - 1)
        end = re.compile(r'^%s\}$' % head['indent'], re.M).search(text, head.end())
        if opened and end and opened.end() <= end.start():
            parameters = [p.strip() for p in re.split(r',(?![^\[]*\])', head['parameters']) if p.strip()]
            yield head['name'], parameters, text[opened.end():end.start()]


def types(text, word):
    """Name and body of each struct or enum."""
    for match in re.finditer(r'^ *(?:pub )?%s (\w+)(?:<[^>]*>)? \{\n(.*?)^\}' % word, text, re.M | re.S):
        yield match[1], match[2]


def shape(body):
    """The body's tokens, with one mark for each name and each number."""
    body = re.sub(r'//[^\n]*', '', body)
    words = {'let', 'mut', 'if', 'else', 'while', 'for', 'in', 'return', 'match', 'as', 'loop', 'break'}
    tokens = re.findall(r'\w+|[^\w\s]', body)
    return ' '.join(t if t in words or not re.match(r'\w', t) else ('0' if t[0].isdigit() else 'x') for t in tokens)


def show(title, places):
    print(f'{title}: {len(places)}')
    for place in places:
        print('    ' + place)


def kinds():
    carrying, flags, codes, none = [], [], [], []
    for crate, text in sources():
        for name, body in types(text, 'enum'):
            if '(' in body or '{' in body:
                carrying.append(f'{crate}::{name}')
        for name, body in types(text, 'struct'):
            if re.search(r': bool,$', body, re.M) and body.count(':') > 1:
                flags.append(f'{crate}::{name}')
        codes += [f'{crate}::{m[1]}' for m in re.finditer(r'^(?:pub )?const ([A-Z_]+): usize = \d+;', text, re.M)]
        # a comment that names the number which stands for none
        spoken = re.compile(r'^ *// [^\n]*(?:if none is|where there is none|0 where (?:that|it)|where none)[^\n]*\n(?: *//[^\n]*\n)*(?: *#[^\n]*\n)* *(?:pub )?fn (\w+)', re.M)
        none += [f'{crate}::{m[1]}' for m in spoken.finditer(text)]
    show('1a enums of which some cases carry a value', carrying)
    show('1b structs with a flag beside other fields', flags)
    show('1c constants that number rows, places or sizes', codes)
    show('1d functions that answer a number for none', none)


def twins():
    groups = collections.defaultdict(list)
    for crate, text in sources():
        for name, _, body in functions(text):
            if len(body.split('\n')) >= 5:
                groups[shape(body)].append(f'{crate}::{name}')
    show('2 groups of functions with bodies of one shape', [' '.join(names) for names in groups.values() if len(names) > 1])


def loops():
    walks, others, ranges = [], [], []
    for crate, text in sources():
        for name, _, body in functions(text):
            for test in re.findall(r'^ *while (.*) \{$', body, re.M):
                counted = re.match(r'(?:\w+ <=? .*|.*\b(\w+)\b < .*)', test)
                (walks if counted else others).append(f'{crate}::{name}: while {test}')
            others += [f'{crate}::{name}: loop'] * len(re.findall(r'\bloop \{$', body, re.M))
            ranges += [f'{crate}::{name}: for {test}' for test in re.findall(r'^ *for (.*) \{$', body, re.M)]
    show('3a loops that test an index', walks)
    show('3b other while loops', others)
    show('3c for loops', ranges)


def conversions():
    casts, comparisons = [], []
    for crate, text in sources():
        for name, _, body in functions(text):
            casts += [f'{crate}::{name}: as {kind}' for kind in re.findall(r'\bas ([ui](?:8|16|32|64|size))\b', body)]
            if len(re.findall(r'^ *if .* (?:!=|<) .* \{\n *return (?:true|false)', body, re.M)) >= 2:
                comparisons.append(f'{crate}::{name}')
    show('4a casts by `as`', casts)
    show('4b comparisons field by field', comparisons)


def companions():
    many, groups = [], collections.Counter()
    for crate, text in sources():
        for name, parameters, _ in functions(text):
            if len(parameters) >= 7:
                many.append(f'{crate}::{name}: {len(parameters)}')
            names = sorted({re.sub(r'^mut ', '', p.split(':')[0]) for p in parameters})
            groups.update((a, b) for i, a in enumerate(names) for b in names[i + 1:])
    show('5a functions with seven parameters or more', many)
    show('5b pairs of parameters that ten functions or more take', [f'{a}, {b}: {n}' for (a, b), n in groups.most_common() if n >= 10])


def buffers():
    nested, parallel, beside = [], [], []
    for crate, text in sources():
        nested += [f'{crate}::{m[1]}' for m in re.finditer(r'^pub type (\w+) = \[\[', text, re.M)]
        for name, body in types(text, 'struct'):
            sizes = collections.Counter(re.findall(r': \[\w+; (\w+)\],$', body, re.M))
            if sizes and sizes.most_common(1)[0][1] > 1:
                parallel.append(f'{crate}::{name}')
            if sizes and re.search(r'\bcount: usize', body):
                beside.append(f'{crate}::{name}')
        for name, parameters, _ in functions(text):
            if any(p.startswith('list:') for p in parameters) and any(p.startswith('count:') for p in parameters):
                beside.append(f'{crate}::{name}: list, count')
    show('6a arrays of rows that are told apart by a number', nested)
    show('6b structs with arrays of one length side by side', parallel)
    show('6c a count beside a buffer', beside)


def switches():
    modes = []
    for crate, text in sources():
        modes += [f'{crate}::{name}' for name, parameters, _ in functions(text) if any(p.startswith('mode:') for p in parameters)]
    show('7 functions that are told by a mode what to do', modes)


def proofs():
    raw, chains, answers = 0, 0, 0
    for path in glob.glob(f'{ROOT}/crates/*/proofs/**/*.antt', recursive=True):
        text = open(path).read()
        raw += text.count('branch-raw')
        chains += len(re.findall(r'(?:\.before){3,}', text))
        answers += len(re.findall(r'^pub \S+ : goal\.', text, re.M))
    print(f'8a answers: {answers}')
    print(f'8b answers that cite a branch by the prover\'s own name: {raw}')
    print(f'8c facts fetched from three steps before or more: {chains}')


for part in (kinds, twins, loops, conversions, companions, buffers, switches, proofs):
    part()
