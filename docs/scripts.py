#!/usr/bin/env python3
"""The scripts of the documents, which stand there alone: examples/rows.sh puts them among the gate's data, docs/check.sh runs them.

scripts.py rows       each script behind its heading, as crates/rw_rows reads them
scripts.py answers    what is to be written for them

A chapter (`## ..`) with blocks ```requests and ```replies is a script. In docs/REFUSALS.md each row of a table is one: the requests that stand
at the top of the page, those of the row, and the reply to the last one; all before it are edits that are accepted.
"""
import os
import re
import sys

TOP = os.path.dirname(os.path.dirname(os.path.abspath(__file__)))
PAGES = ['README.md', 'docs/TUTORIAL.md', 'docs/CERTIFICATES.md', 'docs/ARITHMETIC.md', 'docs/LANGUAGE.md', 'docs/REFUSALS.md']
BLOCK = re.compile(r'^```(\w+)\n(.*?)^```$', re.S | re.M)


def read(page):
    with open(os.path.join(TOP, page), encoding='utf-8') as file:
        return file.read()


def chapters(page):
    """Each chapter with a script: its name, its requests, its replies."""
    for number, chapter in enumerate(re.split(r'^## ', read(page), flags=re.M)):
        blocks = BLOCK.findall(chapter)
        requests, replies = (''.join(text for kind, text in blocks if kind == wanted) for wanted in ('requests', 'replies'))
        if requests:
            yield '%s %d' % (page, number), requests, replies


def row(name, requests, reply):
    """A row of a table of replies: the edits before its last request are accepted."""
    edits = ''.join('ok %d\n' % (number + 1) for number in range(len(requests) - 1))
    return name, '\n'.join(requests) + '\n', edits + reply + '\n'


def table_rows(page):
    before = [line[4:] for line in read(page).splitlines() if line.startswith('    ')]
    number = 0
    for line in read(page).splitlines():
        if line.startswith('## Certificates'):
            before = before + ['root :[x = 1 and y = 2, x = 1]', 'step main skip']
        cells = [cell.strip().replace('\\|', '|') for cell in re.split(r'(?<!\\)\|', line)[1:-1]]
        if len(cells) == 3 and cells[0].startswith('`') and cells[1].startswith('`'):
            number += 1
            yield row('%s row %d' % (page, number), before + cells[1].strip('`').split(' ⏎ '), cells[0].strip('`'))


def scripts():
    """All scripts: name, requests, replies."""
    for page in PAGES:
        yield from table_rows(page) if page.endswith('REFUSALS.md') else chapters(page)


def status(replies):
    return 1 if re.search(r'^E\d', replies, re.M) else 0


def main(wanted):
    for name, requests, replies in scripts():
        sys.stdout.write('== %s\n' % name)
        sys.stdout.write(requests if wanted == 'rows' else '%s-- status %d\n' % (replies, status(replies)))


if __name__ == '__main__':
    main(sys.argv[1])
