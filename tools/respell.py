#!/usr/bin/env python3
"""Brings the names of this repository's own definitions and lemmas to today's spelling: words in snake case, types and
modules as they are. Run once at the top of the repository, after port.py. With --list it prints what it would rename.

A name counts as the repository's own where a file of specs/ or proofs/ declares it; a file that imports the same name
from a library of the kit keeps it. Names that Rattle makes (of loops, goals, places) are not declared there."""
import collections
import os
import re
import sys

SEPARATE = ' \t\n(){}[].,;"⌜⌝⟦⟧'
TOKEN = re.compile('[^' + re.escape(SEPARATE) + ']+')
WORDS = ('pub', 'abbrev', 'unfoldable', 'data', 'record', 'ruleset')
# Lemmas that port.py has spelled as a definition is spelled now: where both meet, the lemma takes the ending that the kit gives it.
LEMMAS = {'by_first', 'formals_from', 'goes_on', 'shown_by', 'not_taken'}


def snake(name):
    if re.match(r"[a-z][^-]*[A-Z]|[a-z].*-|.*′", name):
        s = name.replace('′', "'")
        if re.match(r'[a-z]', s):
            s = re.sub(r"(?<=[a-z0-9'])([A-Z])", lambda m: '_' + m.group(1).lower(), s).replace('-', '_')
        return s
    return name


def antt_files(top):
    for folder, folders, files in os.walk(os.path.join(top, 'crates')):
        if 'out' in folders:
            folders.remove('out')
        parts = os.path.relpath(folder, os.path.join(top, 'crates')).split(os.sep)
        if len(parts) > 1 and parts[1] in ('specs', 'proofs'):
            for name in sorted(files):
                if name.endswith('.antt'):
                    yield os.path.join(folder, name)


def uncommented(text):
    return re.sub(r'(?m)(^|\s)--[^\n]*', r'\1', text)


def declared(text):
    """The names that a file declares, also those of fields, constructors and where-clauses."""
    for line in uncommented(text).split('\n'):
        words = line.strip().split(' ')
        while words and words[0] in WORDS:
            words = words[1:]
        if not words or not TOKEN.fullmatch(words[0]):
            continue
        rest = ' '.join(words[1:])
        depth = 0
        ahead = ''
        for ch in rest:
            if ch in '({':
                depth += 1
            elif ch in ')}':
                depth -= 1
            elif depth == 0:
                ahead += ch
        if re.match(r"[^=→λ:]*(^|\s):(\s|$)", ahead):
            yield words[0]
            for other in ahead.split(':')[0].split():
                if TOKEN.fullmatch(other):
                    yield other


def imported(text, crates):
    """The names that a file imports from the kit."""
    for m in re.finditer(r'(?m)^\s*(?:ghost )?(?:pub )?use ([^\s{]+?)\.\{([^}]*)\}', text):
        path = m.group(1).split('.')
        own = path[0] == 'Rattle' and len(path) > 1 and path[1] in crates
        if not own:
            for item in m.group(2).split(','):
                for word in item.split(' as '):
                    yield word.strip()


def renamings(top):
    crates = set(os.listdir(os.path.join(top, 'crates')))
    names = collections.defaultdict(set)
    for path in antt_files(top):
        text = open(path).read()
        if os.path.basename(path) == 'Proof.antt':
            text = '\n'.join(x for x in text.split('\n') if ' : tie.' not in x and 'statement' not in x)
        foreign = set(imported(text, crates))
        for name in declared(text):
            if name not in foreign:
                names[name].add(path)
    return names, crates


def turned(text, table, foreign):
    pieces = re.split(r'("(?:[^"\\\n]|\\.)*")', text)
    for i in range(0, len(pieces), 2):
        pieces[i] = TOKEN.sub(lambda m: table.get(m.group(0), m.group(0)) if m.group(0) not in foreign else m.group(0), pieces[i])
    return ''.join(pieces)


def crate_of(top, path):
    return os.path.relpath(path, os.path.join(top, 'crates')).split(os.sep)[0]


def meet(top, table, crates):
    """The names that would be one in some file."""
    for path in antt_files(top):
        text = uncommented(open(path).read())
        foreign = set(imported(text, crates))
        came = collections.defaultdict(set)
        for word in TOKEN.findall(re.sub(r'"(?:[^"\\\n]|\\.)*"', '', text)):
            came[word if word in foreign else table.get(word, word)].add(word)
        for to, words in came.items():
            if len(words) > 1:
                yield to, words, path


def main():
    top = '.'
    names, crates = renamings(top)
    table = {name: snake(name) for name in names if snake(name) != name}
    # a lemma whose name would be a definition's keeps its dash
    for to, words, path in meet(top, table, crates):
        for word in words:
            if '-' in word:
                table.pop(word, None)
    met = {(crate_of(top, path), to) for to, words, path in meet(top, table, crates) if to in LEMMAS}
    if '--list' in sys.argv:
        for to, words, path in meet(top, table, crates):
            print('falls together:', to, sorted(words), path)
        print(len(table), 'names')
        return
    for path in antt_files(top):
        text = open(path).read()
        own = crate_of(top, path)
        here = {**table, **{name: name + '_lem' for crate, name in met if crate == own and '/specs/' not in path}}
        new = turned(text, here, set(imported(text, crates)))
        if new != text:
            open(path, 'w').write(new)
    for folder, folders, files in os.walk(os.path.join(top, 'crates')):
        if 'out' in folders:
            folders.remove('out')
        for name in files:
            path = os.path.join(folder, name)
            if name.endswith('.rt') or (name.endswith('.edit') and re.search(r'(?m)^file: specs', open(path).read())):
                text = open(path).read()
                new = turned(text, table, set(imported(text, crates)))
                if new != text:
                    open(path, 'w').write(new)


main()
