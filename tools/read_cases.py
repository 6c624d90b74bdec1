#!/usr/bin/env python3
"""Runs files of cases through a program with the command line of `rag`: read_cases.py PROGRAM FILE..

A second reader of the files that `rag_cases` reads; `crates/rag_cases/data/README.md` says how these are written. PROGRAM is a native
`rag`, or another implementation. It is run once for each case, in a folder with the case's four files. Cases with a planned fault
(`fetch`, `put`) are left out, since no file makes them happen. It ends with 1 where a case gives something else, or a file has a fault."""
import os, re, subprocess, sys, tempfile

# How long a case may take. One that takes longer has no status.
SECONDS = 60

MARKS = b'|%*$>=!'
FILES = (b'g.ast', b'a.jrag', b't.tree', b'q.txt')
CODED = re.compile(rb'%([0-9A-F]{2})')


class Row:
    def __init__(self, name, mark, text):
        self.name, self.mark, self.text = name, mark, text

    def is_fit(self):
        """Whether a row of that name can have that mark and that text."""
        is_number = self.name.isdigit()
        if self.mark == b'|': return self.name in FILES
        if self.mark == b'%': return (self.name in FILES or is_number) and b'%' not in CODED.sub(b'', self.text)
        if self.mark == b'*': return self.name in FILES and self.text.split(b' ')[0].isdigit()
        if self.mark in b'>=': return is_number
        if self.mark == b'$': return True
        return self.name in (b'fetch', b'put') and self.text.isdigit()

    def bytes(self):
        if self.mark == b'%': return CODED.sub(lambda m: bytes([int(m[1], 16)]), self.text)
        if self.mark == b'*':
            times, _, text = self.text.partition(b' ')
            return text * int(times)
        return self.text


def row_of(line, above):
    """The row that a line is, or None."""
    at = min((line.find(bytes([mark])) for mark in MARKS if bytes([mark]) in line), default=-1)
    if at < 0: return None
    mark, text = line[at:at + 1], line[at + 1:]
    name = b'$' if mark == b'$' else line[:at].strip() or above
    row = Row(name, mark, text[1:] if text.startswith(b' ') else text)
    return row if row.is_fit() else None


class Case:
    def __init__(self, title, line, common):
        self.title, self.line, self.common, self.own = title, line, common, []

    def rows(self, name):
        own = [row for row in self.own if row.name == name]
        return own or [row for row in self.common if row.name == name]

    def status(self):
        """The status that it is to end with; None where no row or rows of two statuses say it."""
        for rows in (self.own, self.common):
            names = {row.name for row in rows if row.name.isdigit()}
            if names: return names.pop() if len(names) == 1 else None
        return None

    def output(self):
        return b''.join(row.bytes() + (b'' if row.mark == b'=' else b'\n') for row in self.rows(self.status()))

    def file(self, name):
        return b'\n'.join(row.bytes() for row in self.rows(name))

    def words(self):
        return [word.decode() for row in self.rows(b'$')[:1] for word in row.text.split()]

    def is_planned(self):
        return any(self.rows(name) for name in (b'fetch', b'put'))


def read(path, tell):
    """The cases of a file. What is no row, no case or a title for the second time is told."""
    common, cases, above, titles, number = [], [], b'', set(), 0
    for number, line in enumerate(open(path, 'rb').read().split(b'\n'), 1):
        if line.startswith(b'== '):
            if line in titles: tell(f'{path}:{number}: a title that stands above')
            titles.add(line)
            cases.append(Case(line[3:].decode(), number, common))
            above = b''
        elif line.strip() and not line.startswith(b'#'):
            row = row_of(line, above)
            if row is None:
                tell(f'{path}:{number}: no row')
                continue
            above = row.name
            (cases[-1].own if cases else common).append(row)
    if not cases: tell(f'{path}:{number}: no case')
    return cases


def run(program, case, room):
    for name in FILES:
        with open(os.path.join(room, name.decode()), 'wb') as file: file.write(case.file(name))
    try:
        ran = subprocess.run([program, *case.words()], cwd=room, stdin=subprocess.DEVNULL, stdout=subprocess.PIPE, timeout=SECONDS)
    except subprocess.TimeoutExpired:
        return None, b''
    return ran.returncode, ran.stdout


def main(program, paths):
    program = os.path.abspath(program)
    faults, count, planned = [], 0, 0
    def tell(line):
        faults.append(line)
        print(line)
    with tempfile.TemporaryDirectory() as room:
        for path in paths:
            for case in read(path, tell):
                status = case.status()
                if status is None:
                    tell(f'{path}:{case.line}: {case.title}: no expected output, or of two statuses')
                elif case.is_planned():
                    planned += 1
                else:
                    count += 1
                    want, got = (int(status), case.output()), run(program, case, room)
                    if got != want: tell(f'{path}:{case.line}: {case.title}: expected {want[0]} {want[1]!r}, got {got[0]} {got[1]!r}')
    print(f'{count} cases, {len(faults)} faults; {planned} with planned faults left out')
    return 1 if faults else 0


if __name__ == '__main__':
    if len(sys.argv) < 3: sys.exit(__doc__)
    sys.exit(main(sys.argv[1], sys.argv[2:]))
