#!/usr/bin/env python3
"""Colours all examples by both files: editors/check.py. Its status is 0 where each token falls into a class.

The TextMate grammar is read as it stands: at each place the first of its regular expressions that fits wins. The Vim file is run by Vim, where it
is installed. In a derivation, and in each script of the documents that is not refused, each token is in one piece of a class that is not `invalid`;
in examples/cases, where false lines are, each character has a class. Lines are looked at up to 2,000 columns.
"""
import glob
import json
import os
import re
import shutil
import subprocess
import sys
import tempfile

TOP = os.path.dirname(os.path.dirname(os.path.abspath(__file__)))
sys.path.insert(0, os.path.join(TOP, 'docs'))
sys.dont_write_bytecode = True
import scripts

LONGEST = 2000
TOKEN = re.compile(r':=|<=|>=|<>|=>|\|-|\|\[|\]\||\[\]|->|[A-Za-z][A-Za-z0-9_]*|_[1-9][0-9]*|[0-9]+|\S')
RESERVED = '''and or not true false forall exists int array div mod put var root step prove define lemma proc module oper drop init couple
status all goal goals code run users print undo redo claim release skip open weaken strengthen assign follow seq seqcon con contract expand if fi do
od block call op'''.split()
RULES = '''ax falseL trueR refl lin cut dropL dropR notL notR andL andR orL orR impL impR allL allR exL exR eqR flip rwL rwR putSame putOther arrExt divMod
unfoldL unfoldR'''.split()


def textmate():
    """The classes of the TextMate grammar, in order, by the last but one part of their names."""
    with open(os.path.join(TOP, 'editors/derivation.tmLanguage.json'), encoding='utf-8') as file:
        grammar = json.load(file)
    return [(pattern['name'].removesuffix('.derivation'), re.compile(pattern['match'])) for pattern in grammar['patterns']]


def vim_words():
    """The keywords of the Vim file."""
    with open(os.path.join(TOP, 'editors/derivation.vim'), encoding='utf-8') as file:
        lists = re.findall(r'^syntax keyword derivation\w+ (.*)$', file.read(), re.M)
    return set(' '.join(lists).split())


# What Vim runs: of each line the begins of its pieces with their classes, a line each.
PIECES = """
let all = []
for number in range(1, line('$'))
  let [found, last] = ['', -1]
  for column in range(1, min([col([number, '$']) - 1, LONGEST]))
    let class = synID(number, column, 1)
    if class != last
      let found .= ' ' . (column - 1) . ':' . synIDattr(class, 'name')
      let last = class
    endif
  endfor
  call add(all, found)
endfor
call writefile(all, 'PLACE')
quitall!
""".replace('LONGEST', str(LONGEST))


def by_vim(text):
    """The pieces of each line, as Vim colours them."""
    with tempfile.TemporaryDirectory() as room:
        files = {name: os.path.join(room, name) for name in ('text', 'run.vim', 'pieces')}
        with open(files['text'], 'w', encoding='utf-8') as file:
            file.write(text)
        with open(files['run.vim'], 'w', encoding='utf-8') as file:
            file.write('syntax on\nsyntax clear\nunlet! b:current_syntax\nsource %s/editors/derivation.vim\n' % TOP + PIECES.replace('PLACE', files['pieces']))
        subprocess.run(['vim', '-N', '-u', 'NONE', '-i', 'NONE', '-es', '-S', files['run.vim'], files['text']], check=False)
        with open(files['pieces'], encoding='utf-8') as file:
            for line, found in zip(text.splitlines(), file):
                starts = [piece.split(':') for piece in found.split()]
                ends = [int(start) for start, _ in starts[1:]] + [len(line)]
                yield [(int(start), end, name or None) for (start, name), end in zip(starts, ends)]


def coloured(line, classes):
    """The line's pieces: begin, end, class. What has no class is None."""
    pieces, at = [], 0
    while at < len(line):
        if line[at].isspace():
            at += 1
            continue
        for name, expression in classes:
            found = expression.match(line, at)
            if found and found.end() > at:
                pieces.append((at, found.end(), name))
                at = found.end()
                break
        else:
            pieces.append((at, at + 1, None))
            at += 1
    return pieces


def is_whole(line, pieces):
    """Whether each token of the line is in one piece of a class that is not invalid."""
    named = [(begin, end) for begin, end, name in pieces if name and 'nvalid' not in name]
    tokens = [line] if line.startswith('#') else TOKEN.finditer(line)
    spans = [(0, len(line)) if token is line else token.span() for token in tokens]
    return all(any(begin <= first and last <= end for begin, end in named) for first, last in spans)


def has_colour(line, pieces):
    """Whether each character that is not white has a class."""
    return all(name or line[begin:end].isspace() for begin, end, name in pieces)


def sources():
    """Name, text, and whether each line is to be right."""
    for file in sorted(glob.glob(os.path.join(TOP, 'examples/**/*.*'), recursive=True)):
        if file.endswith(('.script', '.rows')):
            with open(file, encoding='ascii', errors='replace') as opened:
                text = ''.join(line[:LONGEST].rstrip('\n') + '\n' for line in opened.read().replace('\ufffd', '?').split('\n') if line.isprintable())
                yield os.path.relpath(file, TOP), text, file.endswith('.script') and '/cases/' not in file
    for name, requests, replies in scripts.scripts():
        yield name, requests, not scripts.status(replies)


def editors():
    """Each editor that can be tried: its name, and what gives the pieces of each line of a text."""
    marks = textmate()
    yield 'TextMate', lambda text: (coloured(line, marks) for line in text.splitlines())
    if shutil.which('vim'):
        yield 'Vim', by_vim
    else:
        print('vim is not installed: of its file the words alone are looked at')


def faults():
    for word in sorted(set(RESERVED + RULES) - vim_words()):
        yield 'Vim: %s is no keyword' % word
    for word in RESERVED + RULES:
        if coloured(word, textmate())[0][2].startswith(('variable', 'invalid')):
            yield 'TextMate: %s is no keyword' % word
    for editor, pieces_of in editors():
        lines = [(source, line, is_right) for source, text, is_right in sources() for line in text.splitlines()]
        found = list(pieces_of(''.join(line + '\n' for _, line, _ in lines)))
        for (source, line, is_right), pieces in zip(lines, found):
            if not has_colour(line, pieces) or is_right and not is_whole(line, pieces):
                yield '%s: %s: %s' % (editor, source, line[:100])
        if len(found) < len(lines):
            yield '%s: only %d of %d lines were looked at' % (editor, len(found), len(lines))
        print('%s: %d lines, %d classes' % (editor, len(found), len({name for pieces in found for _, _, name in pieces if name})))


bad = list(faults())
for fault in bad[:40]:
    print(fault)
print('%d not as they are to be' % len(bad))
sys.exit(1 if bad else 0)
