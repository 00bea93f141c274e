"""The tables of a document, the sources that stand in them, the Rust reference and the second model; for check-refusals and check-differences.

A source in a table is its lines in order, each in a code span, a comma and a blank between them; each line is ended by LF. In a code span `<tab>` and
`<byte N>` (N decimal) stand for that byte, and `\\|` for `|`. "1,025 lines `aN:`" is so many lines, N counting from 1 in them; "5 blanks" is so many
blanks; "nothing" is the empty text.
"""
import os, re, subprocess, tempfile

ROOT = os.path.normpath(os.path.join(os.path.dirname(os.path.abspath(__file__)), '..'))
REFERENCE = os.path.join(ROOT, 'differential', 'target', 'release', 'differential')
COMPARE = os.path.join(ROOT, 'differential', 'compare')
# A folder of its own, so that a `compare` with the library stays as it is.
BUILT = os.path.join(COMPARE, 'target', 'alone')


class Row:
    """A row: its line in the document, the heading it stands under, and its cells by the titles of their columns."""
    def __init__(self, place, heading, titles, cells):
        self.place, self.heading, self.titles = place, heading, titles
        self.cells = dict(zip(titles, cells))

    def __getitem__(self, title):
        if title not in self.cells:
            raise SystemExit('line %d: no column "%s"' % (self.place, title))
        return self.cells[title]


def rows(path):
    """Every row of every table. A row with too few or too many cells is an error."""
    found, heading, titles = [], '', None
    for place, line in enumerate(open(path, encoding='utf-8'), 1):
        if line.startswith('#'):
            heading = line.strip('# \n')
        if not line.startswith('|'):
            titles = None
            continue
        cells = [cell.strip().replace('\\|', '|') for cell in re.split(r'(?<!\\)\|', line.strip())[1:-1]]
        if titles is None:
            titles = cells
        elif set(line.strip()) <= set('|- '):
            pass
        elif len(cells) != len(titles):
            raise SystemExit('line %d: %d cells under %d titles' % (place, len(cells), len(titles)))
        else:
            found.append(Row(place, heading, titles, cells))
    return found


def spans(cell):
    """What stands in a cell's code spans."""
    return re.findall(r'`([^`]*)`', cell)


def number(digits):
    return int(digits.replace(',', ''))


def line_bytes(span):
    """A line's bytes: the document's UTF-8, and the bytes that it names."""
    parts = re.split(r'<(tab|byte \d+)>', span)
    named = lambda part: b'\t' if part == 'tab' else bytes([int(part[5:])])
    return b''.join(named(part) if k % 2 else part.encode('utf-8') for k, part in enumerate(parts))


PART = re.compile(r'`([^`]*)`|([\d,]+) lines `([^`]*)`|([\d,]+) blanks|nothing')


def parts(cell):
    """The parts of a cell's source, in order; None if the cell is no source."""
    found, at = [], 0
    while True:
        part = PART.match(cell, at)
        if part is None:
            return None
        found.append(part)
        at = part.end()
        if at == len(cell):
            return found
        if not cell.startswith(', ', at):
            return None
        at += 2


def part_bytes(part, fewer=0):
    """A part's bytes; of what is written as a count, so many fewer."""
    line, count, each, blanks = part.groups()
    if line is not None:
        return line_bytes(line) + b'\n'
    if count is not None:
        return b''.join(line_bytes(each.replace('N', str(n))) + b'\n' for n in range(1, number(count) - fewer + 1))
    if blanks is not None:
        return b' ' * (number(blanks) - fewer)
    return b''


def source(cell):
    """The bytes of a cell's source; None if the cell is no source."""
    found = parts(cell)
    return None if found is None else b''.join(part_bytes(part) for part in found)


def smaller(cell):
    """The source without one of its lines, without one of its bytes but blanks, or with a count one less."""
    found = parts(cell)
    for k, part in enumerate(found):
        before, after = (b''.join(part_bytes(other) for other in some) for some in (found[:k], found[k + 1:]))
        line, count, each, blanks = part.groups()
        if count is not None or blanks is not None:
            yield before + part_bytes(part, 1) + after
        elif line is not None:
            yield before + after
            own = part_bytes(part)
            for place in range(len(own) - 1):
                if own[place] != 32:
                    yield before + own[:place] + own[place + 1:] + after


def build_reference():
    """The reference, and the model that is held to it."""
    build = ['cargo', 'build', '--release', '--quiet', '--manifest-path']
    model = ['--no-default-features', '--target-dir', BUILT]
    for command in (build + [os.path.join(ROOT, 'differential', 'Cargo.toml')], build + [os.path.join(COMPARE, 'Cargo.toml')] + model):
        if subprocess.run(command).returncode:
            raise SystemExit('the reference could not be built')


def ask_reference(command, *arguments):
    """What the reference's program prints, or `panics` and why."""
    ran = subprocess.run([REFERENCE, command, *arguments], capture_output=True, env=dict(os.environ, RUST_BACKTRACE='0'))
    if ran.returncode == 101:
        said = [line for line in ran.stderr.decode('utf-8', 'replace').split('\n') if line.strip()]
        return 'panics: ' + said[1]
    if ran.returncode:
        return 'error: ' + ran.stderr.decode('utf-8', 'replace').strip()
    return ran.stdout.decode('utf-8', 'replace').rstrip('\n')


class Sources:
    """A folder of this run; the program and the reference read a source from a file in it."""
    def __init__(self):
        self.folder = tempfile.TemporaryDirectory()

    def file(self, name, content):
        path = os.path.join(self.folder.name, name)
        with open(path, 'wb') as out:
            out.write(content)
        return path

    def assembled(self, text, base=0):
        """`ok WORDS DATA BSS`, `no LINE MESSAGE`, `panics: ..`, or `error: ..` where the text cannot be given to it."""
        return ask_reference('assemble-at', str(base), self.file('source.s', text))

    def laid(self, text, base=0):
        """The model's answer once it is held to the reference, in the lines of docs/call.c; one line `error: ..` where they differ, and one
        line `outside the domain: ..` where the text is not compared. It is compared where document 02 differs from the Rust, with W-201's bytes
        or W-202's words in the place of the Rust's."""
        path = self.file('source.s', text)
        ran = subprocess.run([os.path.join(BUILT, 'release', 'compare'), 'answer', path, str(base)], capture_output=True, text=True)
        if ran.returncode:
            return ['error: ' + ran.stderr.strip()]
        lines = ran.stdout.rstrip('\n').split('\n')
        if not lines[-1].startswith('outside the domain: '):
            return lines
        return lines[:-1] if '(W-20' in lines[-1] else lines[-1:]


# What is lent in full: words, and bytes of the other four.
FULL = {'words': 16384, 'data': 65536, 'labels': 1024 * 16, 'equates': 256 * 24, 'items': 2048 * 24}


def with_of(cell):
    """The base, and what is lent: "base 5, labels 15"."""
    base, lent = 0, dict(FULL)
    for part in cell.split(', ') if cell else []:
        name, value = part.split(' ')
        if name == 'base':
            base = number(value)
        else:
            lent[name] = min(lent[name], number(value))
    return base, lent


def said(command, text):
    """What a program writes, the text on its standard input."""
    return subprocess.run(command, input=text, capture_output=True).stdout.decode('utf-8', 'replace').rstrip('\n')


def build_call(library, folder):
    """docs/call.c with the library that exports the call; the command without its arguments."""
    call = os.path.join(folder, 'call')
    caller = os.path.join(ROOT, 'docs', 'call.c')
    made = subprocess.run([os.environ.get('CC', 'cc'), '-std=c99', '-Wall', '-O1', '-o', call, caller, library])
    if made.returncode:
        raise SystemExit('docs/call.c could not be built with %s' % library)
    return call


def call_command(call, base, lent):
    return [call, str(base)] + [str(lent[name]) for name in FULL]
