#!/usr/bin/env python3
"""Prints what changed since a commit, old and new side by side: types, signatures with their clauses, definitions, and the named theorems.

    python3 tools/design/changes.py COMMIT      run at the top of the checkout
"""
import collections
import re
import subprocess
import sys

BASE = sys.argv[1]
PAGES = ['README.md'] + [f'docs/{name}.md' for name in ('THEOREMS', 'DESIGN', 'DECISIONS', 'EDITS', 'PORT')]
HEAD = re.compile(r'^ *(?:#\[[^\n]*\]\n *)*(?:pub )?(?:extern "C" )?fn (\w+)', re.M)


def git(*words):
    return subprocess.run(['git', *words], capture_output=True, text=True, check=True).stdout


def files(commit, ending):
    """The files of a commit, or of the checkout."""
    names = git('ls-tree', '-r', '--name-only', commit, 'crates').split() if commit else git('ls-files', 'crates').split()
    for name in names:
        if name.endswith(ending):
            yield name, git('show', f'{commit}:{name}') if commit else open(name).read()


def plain(text):
    """One line, without comments."""
    return ' '.join(re.sub(r'(?m)^ *(?://|--).*$', '', text).split())


def code(commit):
    """Each type and each function's signature with its clauses, by crate and name."""
    found = {}
    for path, text in files(commit, '.rt'):
        crate = path.split('/')[1]
        for match in re.finditer(r'^(?:#\[derive[^\n]*\n)?(?:pub )?(?:struct|enum|type) (\w+)[^;{]*(?:;|\{\n.*?^\})', text, re.M | re.S):
            found[crate, match[1]] = plain(match[0])
        for match in re.finditer(r'^pub type (\w+) = [^;]*;(?=\n)', text, re.M):
            found[crate, match[1]] = plain(match[0])
        for match in re.finditer(r'^(?:pub )?const (\w+): [^;]*(?:;|\{[^}]*\};)', text, re.M):
            found[crate, match[1]] = plain(match[0])
        holder = ''
        for match in re.finditer(r'^impl (?:\w+ for )?(\w+) \{|^ *(?:pub )?(?:extern "C" )?fn (\w+).*?(?=^ *\{$|\{\n)|^\}', text, re.M | re.S):
            if match[1]:
                holder = match[1] + '::'
            elif match[2]:
                found[crate, holder + match[2] + '()'] = plain(match[0])
            elif match[0] == '}' and holder:
                holder = ''
    return found


def definitions(commit):
    """Each definition of specs/, by crate and name."""
    found = {}
    for path, text in files(commit, '.antt'):
        crate, folder = path.split('/')[1:3]
        if folder != 'specs':
            continue
        for block in re.split(r'\n(?=\S)', re.sub(r'(?m)^--.*\n?', '', text)):
            name = re.match(r'(?:abbrev |unfoldable )?(?:pub )?(?:record |data )?([\w◌&|≡+*-]+)', block)
            if name and name[1] not in ('use', 'pub', 'module', 'infixl', 'infixr'):
                key = crate, name[1]
                found[key] = (found[key] + ' ; ' if key in found else '') + plain(block)
    return found


def theorems(commit):
    """Lemmas of proofs/ that README or a page of docs/ names."""
    pages = ''.join(text for name in PAGES
                    for text in [git('show', f'{commit}:{name}') if commit else open(name).read()])
    named = set(re.findall(r'`(\w+)`', pages)) | set(re.findall(r'^ *pub (\w+) :', pages, re.M))
    found = {}
    for path, text in files(commit, '.antt'):
        crate, folder = path.split('/')[1:3]
        if folder == 'proofs' and '/Answers' not in path and '/Invariants' not in path:
            for match in re.finditer(r'^ *pub (\w+) : ((?:[^\n]*\n)(?:[ \t]+[^=\n]*\n)*)', text, re.M):
                if match[1] in named:
                    found[crate, match[1]] = plain(match[0])
    return found


def report(title, old, new):
    changed = [key for key in old if key in new and old[key] != new[key]]
    gone = [key for key in old if key not in new]
    came = [key for key in new if key not in old]
    print(f'### {title}\n\nThe same: {len(old) - len(changed) - len(gone)}. Changed: {len(changed)}. Gone: {len(gone)}. New: {len(came)}.\n')
    by_crate = collections.defaultdict(list)
    for key in changed + gone + came:
        by_crate[key[0]].append(key)
    for crate in sorted(by_crate):
        print(f'**{crate}**\n\n```text')
        for key in by_crate[crate]:
            print(f'old  {old.get(key, "-")}\nnew  {new.get(key, "-")}\n')
        print('```\n')


report('Types, constants, signatures and clauses', code(BASE), code(''))
report('Definitions', definitions(BASE), definitions(''))
report('Theorems that README or docs/ name', theorems(BASE), theorems(''))
