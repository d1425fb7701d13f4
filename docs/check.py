"""Called by docs/check.sh at the top of the repository.

Scripts: all of docs/scripts.py. Commands: each line of a block ```sh is run, and the block ```output behind it compared; those that
prove for minutes, plant bugs or write are run with the word `all`, which takes hours, and else it is seen only that they are there.
Links and paths in the documents lead somewhere.
"""
import glob
import os
import re
import shutil
import subprocess
import sys

sys.dont_write_bytecode = True
import scripts

# Whether what takes long is run too.
ALL = sys.argv[1:] == ['all']
PAGES = ['README.md'] + sorted(glob.glob('docs/*.md'))
FENCE = re.compile(r'^```(\w*)\n(.*?)^```$', re.S | re.M)
# What takes long, or writes: it is only looked for.
LONG = re.compile(r'(rt|cd|plants/run\.sh|docs/check\.sh)\b|examples/rows\.sh$')


def is_current(program):
    """A program that the gate has built from these sources."""
    if not os.path.exists(program):
        return False
    built = os.path.getmtime(program)
    return all(os.path.getmtime(file) <= built for end in ('rt', 'antt') for file in glob.glob('crates/**/*.' + end, recursive=True))


def answers(cases):
    """What comes of each script: by the proved program where it is built, else by an unproved build, in one run for all."""
    program = 'crates/derive/out/derive'
    if is_current(program):
        for _, requests, _ in cases:
            ran = subprocess.run([program, 'batch'], input=requests, capture_output=True, text=True)
            yield '%s-- status %d\n' % (ran.stdout, ran.returncode)
        return
    print('check: an unproved build answers the scripts, in some minutes', file=sys.stderr)
    # The interpreter has too little memory for all scripts, so it gives up soon, and the checked run answers.
    command = ['rt', 'try', '--steps', '1000000', '--seconds', '500']
    text = ''.join('== %s\n%s' % (name, requests) for name, requests, _ in cases)
    ran = subprocess.run(command, cwd='crates/rw_rows', input=text, stdout=subprocess.PIPE, stderr=subprocess.DEVNULL, text=True)
    yield from re.split(r'^== .*\n', ran.stdout, flags=re.M)[1:]


def check_scripts():
    cases = list(scripts.scripts())
    found = list(answers(cases))
    found += ['nothing\n'] * (len(cases) - len(found))
    for (name, requests, replies), got in zip(cases, found):
        want = '%s-- status %d\n' % (replies, scripts.status(replies))
        if got != want:
            yield '%s: %s\n  is told\n%s  and gives\n%s' % (name, requests.splitlines()[-1], want, got)
    print('%d scripts' % len(cases))


def is_there(command):
    """Whether the program of a command that is not run here stands, and knows its word."""
    words = command.split()
    if words[0] == 'cd':
        return os.path.isdir(words[1]) and (len(words) < 4 or is_there(' '.join(words[3:])))
    if words[0] == 'rt':
        if not shutil.which('rt'):
            return False
        told = subprocess.run(['rt', 'help'], stdout=subprocess.PIPE, stderr=subprocess.STDOUT, text=True).stdout
        return words[1] in re.split(r'[\s|]+', told)
    return shutil.which(words[0]) is not None or os.access(words[0], os.X_OK)


def check_commands():
    ran, seen = set(), set()
    for page in PAGES:
        blocks = FENCE.findall(scripts.read(page))
        for place, (kind, text) in enumerate(blocks):
            if kind != 'sh':
                continue
            want = blocks[place + 1][1] if blocks[place + 1:] and blocks[place + 1][0] == 'output' else ''
            lines = [re.split(r'\s+#', line)[0] for line in text.splitlines()]
            for line in lines:
                if LONG.match(line) and not (ALL and 'docs/check.sh' not in line):
                    seen.add(line)
                    if not is_there(line):
                        yield '%s: no such command: %s' % (page, line)
                    continue
                if line in ran:
                    continue
                ran.add(line)
                answer = subprocess.run(['bash', '-c', line], capture_output=True, text=True)
                if answer.returncode != 0 or (want and answer.stdout != want):
                    yield '%s: %s\n  ends with %d and writes\n%s' % (page, line, answer.returncode, answer.stdout + answer.stderr)
    print('%d commands run, %d that take long or write only looked for' % (len(ran), len(seen)))


def anchors(text):
    """The anchors of a page: of its headings, and those that it names."""
    headings = re.findall(r'^#+ (.*)$', text, re.M)
    named = re.findall(r'<a id="([^"]+)">', text)
    return set(named) | {re.sub(r'[^\w\- ]', '', heading.lower()).replace(' ', '-') for heading in headings}


def check_links():
    count = 0
    for page in PAGES:
        text = FENCE.sub('', scripts.read(page))
        folder = os.path.dirname(page)
        for target in re.findall(r'\]\(([^)\s]+)\)', text):
            count += 1
            file, _, anchor = target.partition('#')
            file = os.path.normpath(os.path.join(folder, file)) if file else page
            if not os.path.exists(file):
                yield '%s: a link to %s' % (page, target)
            elif anchor and anchor not in anchors(scripts.read(file)):
                yield '%s: a link to %s, which has no such heading' % (page, target)
        for path in re.findall(r'`((?:examples|editors|benchmarks|plants|docs)/[\w./-]*)`', text):
            count += 1
            if not os.path.exists(path) and not re.search(r'[A-Z]{4}', path):
                yield '%s: %s is not there' % (page, path)
    print('%d links and paths' % count)


bad = [fault for check in (check_links, check_commands, check_scripts) for fault in check()]
for fault in bad:
    print(fault)
print('%d not as told' % len(bad))
sys.exit(1 if bad else 0)
