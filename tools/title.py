#!/usr/bin/env python3
"""Titles as text: to a sheet, to a placing, and back. Neither proved nor needed by the planner.

       tools/title.py place [--plan PROGRAM] TITLE    has the proved program place the title, and prints each voice's value and a picture
       tools/title.py write TITLE                     writes the title's sheet, the bytes that `plan` reads, to standard output
       tools/title.py report TITLE REPORT             prints a report that `plan` has written, by the title's names
       tools/title.py show SHEET                      prints a sheet as text, or says in words why it is refused

A file may be `-`, standard input. `place` runs `rt run` in crates/plan, which proves and builds the program where that is still to be done, or else PROGRAM.

A line of a title is a voice or a row; what follows # is a comment. Voices come before rows.

    voice lead 0-3 8                a voice, and the values (lanes, banks, levels) that it may take, from 0 to 63
    voice 0 2-4                     a voice without a name
    different lead bass pad         no two of these voices have the same value                             (A)
    most 26: 2*bass 3*kick -1*pad   twice bass, and three times kick, less pad, is at most 26              (L)
    least 4: choir -1*strings       .. at least 4 (written as a row L with all signs turned)
    exactly 71: 5*kick 6*snare      .. exactly 71 (two rows, as by `most` and `least`)
    some strings=0 pad!=2           the strings have value 0, or the pad has another value than 2          (C)
    table strings -> bank: 4 4 5    bank has the entry of this table at the place, from 0, that strings has (E)

A name begins with a letter. Everywhere a voice may be given by its number instead, from 0 in the order of the voices.
Exit status: 0 where the work was done, 2 where a file has a mistake (up to 20 are printed, each with its line; nothing is written), 1 where a program or its output failed."""
import argparse
import difflib
import os
import re
import struct
import subprocess
import sys
from typing import NamedTuple

# the limits of docs/RULES.md
MOST_VOICES, MOST_VALUE, MOST_ROWS, MOST_MEMBERS, MOST_ROW_BYTES = 80, 63, 120, 32, 8192
MOST_FACTOR, MOST_BOUND, MOST_SHEET = 1000, 3_000_000, 20_000

# how many bytes of a row's body follow the count, by letter
BODY = {'A': 0, 'L': 4, 'C': 0, 'E': 2}

# a literal `voice lacks value` has the argument value + LACKS
LACKS = 64

NAME = re.compile(r"[^\W\d_][\w.'-]*")
WORDS = ('voice', 'different', 'most', 'least', 'exactly', 'some', 'table')
MOST_MISTAKES = 20


class Mistake(Exception):
    """What is wrong with a line, in words."""


class Refusal(Exception):
    """Why a sheet is refused: number, place and layer as `plan` prints them, and words."""
    def __init__(self, number, place, layer, words):
        super().__init__(f'refused {number} at {place} in {layer}: {words}')


class Unusable(Exception):
    """A file that cannot be read or has mistakes: the lines that say so."""


class Failed(Exception):
    """A program that did not do its work."""


class Voice(NamedTuple):
    """A voice: its name, or None, and the values that it may take."""
    name: str
    values: frozenset


class Row(NamedTuple):
    """A row: its letter, the body behind the count, and its members, each a voice and an argument."""
    letter: str
    body: bytes
    members: list


class Title(NamedTuple):
    voices: list
    rows: list

    def labels(self):
        """What each voice is called: by its name, or by its number."""
        return [it.name or str(place) for place, it in enumerate(self.voices)]


def counted(number, noun):
    return f'{number:,} {noun}' if number == 1 else f'{number or "no"} {noun}s'


# ---- text to a title

def integer(word, low, high, what):
    """The number that a word is, within these bounds."""
    if not re.fullmatch(r'-?[0-9]+', word):
        raise Mistake(f'{what} is wanted here, and {word!r} is not a number')
    # longer ones are no use, and too long for int()
    number = int(word) if len(word) <= 20 else None
    if number is None or not low <= number <= high:
        raise Mistake(f'{what} is from {low:,} to {high:,}, and not {word[:20]}{".." * (len(word) > 20)}')
    return number


def values(words):
    found = set()
    for word in words:
        if not re.fullmatch(r'[0-9]+(-[0-9]+)?', word):
            raise Mistake(f'{word!r} is neither a value nor a range of values such as 0-3')
        first, dash, last = word.partition('-')
        low = integer(first, 0, MOST_VALUE, 'a value')
        high = integer(last, 0, MOST_VALUE, 'a value') if dash else low
        if low > high:
            raise Mistake(f'{word} runs backwards: write {high}-{low}')
        found.update(range(low, high + 1))
    if not found:
        raise Mistake('a voice has at least one value that it may take')
    return frozenset(found)


def written_row(row):
    members = b''.join(b'M' + struct.pack('<Bh', *it) for it in row.members)
    return row.letter.encode() + bytes([len(row.members)]) + row.body + members


class Reader:
    """Reads a title line by line, and collects what is wrong with each."""
    def __init__(self, source):
        self.source = source
        self.title = Title([], [])
        self.numbers, self.row_bytes, self.mistakes = {}, 0, []

    def read(self, text):
        for number, line in enumerate(text.split('\n'), 1):
            line = line.partition('#')[0].strip()
            if line:
                self.take(number, line)
        if self.mistakes:
            raise Unusable(self.mistakes)
        return self.title

    def take(self, number, line):
        try:
            self.take_line(*line.split(None, 1))
        except Mistake as mistake:
            if len(self.mistakes) == MOST_MISTAKES:
                raise Unusable([*self.mistakes, f'{self.source}: and more']) from mistake
            self.mistakes.append(f'{self.source}:{number}: {mistake}')

    def take_line(self, word, rest=''):
        if word == 'voice':
            self.voice_line(rest.split())
        elif word in WORDS:
            for row in self.rows_of(word, rest):
                self.add_row(row)
        else:
            raise Mistake(f'a line begins with {", ".join(WORDS[:-1])} or {WORDS[-1]}, and not with {word!r}' + near(word, WORDS))

    # voices

    def voice_line(self, words):
        name = words.pop(0) if words and not re.fullmatch(r'[-0-9]+', words[0]) else None
        try:
            self.check_voice(name)
            found = values(words)
        except Mistake:
            # it counts all the same, so that other lines can name it
            self.add_voice(name, frozenset())
            raise
        self.add_voice(name, found)

    def check_voice(self, name):
        if self.title.rows:
            raise Mistake('voices come before rows')
        if len(self.title.voices) >= MOST_VOICES:
            raise Mistake(f'a title has no more than {MOST_VOICES} voices')
        if name is not None and not NAME.fullmatch(name):
            raise Mistake(f"{name!r} is neither a value nor a name: a name begins with a letter and has letters, digits and _ . ' - alone")
        if name in self.numbers:
            raise Mistake(f'voice {self.numbers[name]} is called {name} already')

    def add_voice(self, name, found):
        if name is not None:
            self.numbers.setdefault(name, len(self.title.voices))
        self.title.voices.append(Voice(name, found))

    def voice(self, word):
        """The number of the voice that a word names."""
        count = len(self.title.voices)
        if re.fullmatch(r'[0-9]+', word):
            if len(word) > 9 or int(word) >= count:
                raise Mistake(f'there is no voice {word[:20]}: {counted(count, "voice")}, numbered from 0')
            return int(word)
        if word not in self.numbers:
            raise Mistake(f'there is no voice {word!r}' + near(word, self.numbers))
        return self.numbers[word]

    # rows

    def rows_of(self, word, rest):
        """The rows that a line stands for."""
        if word == 'different':
            return [self.different(rest.split())]
        if word == 'some':
            return [Row('C', b'', [self.literal(it) for it in rest.split()])]
        if word == 'table':
            return [self.table(rest)]
        return self.sums(word, rest)

    def different(self, words):
        found = [self.voice(it) for it in words]
        for place, it in enumerate(found):
            if it in found[:place]:
                raise Mistake(f'{self.title.labels()[it]} is named twice')
        return Row('A', b'', [(it, 0) for it in found])

    def sums(self, word, rest):
        bound, colon, terms = rest.partition(':')
        if not colon:
            raise Mistake(f'write {word} BOUND: FACTOR*VOICE FACTOR*VOICE ..')
        most = integer(bound.strip(), -MOST_BOUND, MOST_BOUND, 'a bound')
        members = [self.term(it) for it in terms.split()]
        at_most = Row('L', struct.pack('<i', most), members)
        at_least = Row('L', struct.pack('<i', -most), [(voice, -factor) for voice, factor in members])
        return {'most': [at_most], 'least': [at_least], 'exactly': [at_most, at_least]}[word]

    def term(self, word):
        factor, star, name = word.partition('*')
        if star:
            return self.voice(name), integer(factor, -MOST_FACTOR, MOST_FACTOR, 'a factor')
        if not NAME.fullmatch(word):
            raise Mistake(f'{word!r} is no term: write FACTOR*VOICE, or a name alone')
        return self.voice(word), 1

    def literal(self, word):
        found = re.fullmatch(r'([^=!]+)(!?=)([^=!]+)', word)
        if not found:
            raise Mistake(f'{word!r} is neither VOICE=VALUE nor VOICE!=VALUE')
        value = integer(found[3], 0, MOST_VALUE, 'a value')
        return self.voice(found[1]), value + (LACKS if found[2] == '!=' else 0)

    def table(self, rest):
        found = re.fullmatch(r'(\S+?)\s*->\s*([^\s:]+)\s*:(.*)', rest)
        if not found:
            raise Mistake('write table VOICE -> VOICE: ENTRY ENTRY ..')
        entries = [integer(it, 0, MOST_VALUE, 'an entry') for it in found[3].split()]
        return Row('E', bytes([self.voice(found[1]), self.voice(found[2])]), [(0, it) for it in entries])

    def add_row(self, row):
        count, length = len(row.members), len(written_row(row)) if len(row.members) <= MOST_MEMBERS else 0
        if not 1 <= count <= MOST_MEMBERS:
            raise Mistake(f'a row has 1 to {MOST_MEMBERS} members, and this one has {count or "none"}')
        if len(self.title.rows) >= MOST_ROWS:
            raise Mistake(f'a title has no more than {MOST_ROWS} rows (`exactly` is two)')
        if self.row_bytes + length > MOST_ROW_BYTES:
            raise Mistake(f'with this row all rows together would have {self.row_bytes + length:,} bytes, and they have {MOST_ROW_BYTES:,} at most')
        self.title.rows.append(row)
        self.row_bytes += length


def near(word, known):
    found = difflib.get_close_matches(word, known, 1)
    return f'; is it {found[0]}?' if found else ''


# ---- a title to its sheet, and to text

def written_title(title):
    masks = [sum(1 << value for value in it.values) for it in title.voices]
    return b''.join(b'V' + struct.pack('<Q', it) for it in masks) + b''.join(map(written_row, title.rows)) + b'Z'


def write(text, source='title'):
    """The sheet of a title's text."""
    return written_title(Reader(source).read(text))


def ranges(found):
    words, ordered = [], sorted(found)
    while ordered:
        count = 1
        while count < len(ordered) and ordered[count] == ordered[0] + count:
            count += 1
        run, ordered = ordered[:count], ordered[count:]
        words += [f'{run[0]}-{run[-1]}'] if count > 2 else map(str, run)
    return ' '.join(words)


def row_line(row):
    if row.letter == 'A':
        return 'different ' + ' '.join(str(voice) for voice, _ in row.members)
    if row.letter == 'L':
        return f'most {struct.unpack("<i", row.body)[0]}: ' + ' '.join(f'{factor}*{voice}' for voice, factor in row.members)
    if row.letter == 'C':
        return 'some ' + ' '.join(f'{voice}={it}' if it < LACKS else f'{voice}!={it - LACKS}' for voice, it in row.members)
    return f'table {row.body[0]} -> {row.body[1]}: ' + ' '.join(str(entry) for _, entry in row.members)


def text_of(title):
    lines = ['voice ' + ranges(it.values) for it in title.voices] + [row_line(it) for it in title.rows]
    return ''.join(f'{it}\n' for it in lines)


# ---- a sheet to its title

def read_sheet(sheet):
    """The title that a sheet has, or a Refusal with what `plan` says of it."""
    title, at, row_bytes = Title([], []), 0, 0
    while sheet[at:at + 1] != b'Z':
        if at == len(sheet):
            raise Refusal(1, at, 'sheet', 'the bytes end where a record should begin')
        if sheet[at:at + 1] == b'V':
            title.voices.append(read_voice(title, sheet, at))
            at += 9
        else:
            row, length = read_row(sheet, at, len(title.voices))
            row_bytes += length
            if len(title.rows) == MOST_ROWS or row_bytes > MOST_ROW_BYTES:
                raise Refusal(12, at, 'table', f'there are more than {MOST_ROWS} rows, or they have more than {MOST_ROW_BYTES:,} bytes')
            title.rows.append(row)
            at += length
    if at + 1 != len(sheet):
        raise Refusal(4, at + 1, 'sheet', 'bytes follow Z, the end of the sheet')
    return title


def read_voice(title, sheet, at):
    if title.rows:
        raise Refusal(3, at, 'sheet', 'a voice follows a row')
    if at + 9 > len(sheet):
        raise Refusal(6, at, 'sheet', 'the bytes end inside a voice')
    mask = struct.unpack_from('<Q', sheet, at + 1)[0]
    if not mask:
        raise Refusal(10, at, 'table', 'this voice may take no value')
    if len(title.voices) == MOST_VOICES:
        raise Refusal(11, at, 'table', f'there are more than {MOST_VOICES} voices')
    return Voice(None, frozenset(value for value in range(MOST_VALUE + 1) if mask >> value & 1))


def read_row(sheet, at, voices):
    """The row that begins here, and its length."""
    letter = chr(sheet[at])
    if letter not in BODY:
        raise Refusal(2, at, 'row', f'no kind of row has the letter {sheet[at]:02X}')
    count = sheet[at + 1] if at + 1 < len(sheet) else 0
    if not 1 <= count <= MOST_MEMBERS:
        raise Refusal(5, at, 'row', f'a row has 1 to {MOST_MEMBERS} members' + f', and not {count}' * (at + 1 < len(sheet)))
    first = at + 2 + BODY[letter]
    end = first + 4 * count
    if end > len(sheet):
        raise Refusal(6, at, 'row', 'the bytes end inside a row')
    if any(it != 0x4D for it in sheet[first:end:4]):
        raise Refusal(7, at, 'row', 'a member does not begin with M')
    row = Row(letter, sheet[at + 2:first], [struct.unpack_from('<Bh', sheet, place + 1) for place in range(first, end, 4)])
    for voice in (row.body if letter == 'E' else [it for it, _ in row.members]):
        if voice >= voices:
            raise Refusal(8, at, 'row', f'the row names voice {voice}, and there are {counted(voices, "voice")}')
    broken = broken_rule(row)
    if broken:
        raise Refusal(9, at, 'row', broken)
    return row, end - at


def broken_rule(row):
    """Which rule of its kind a row breaks, in words, or None."""
    voices, arguments = [it for it, _ in row.members], [it for _, it in row.members]
    low, high = {'A': (0, 0), 'L': (-MOST_FACTOR, MOST_FACTOR), 'C': (0, MOST_VALUE + LACKS), 'E': (0, MOST_VALUE)}[row.letter]
    if row.letter == 'L' and abs(struct.unpack('<i', row.body)[0]) > MOST_BOUND:
        return f'the bound is not from {-MOST_BOUND:,} to {MOST_BOUND:,}'
    if row.letter == 'A' and len(set(voices)) < len(voices):
        return f'voice {next(it for it in voices if voices.count(it) > 1)} is named twice'
    if row.letter == 'E' and any(voices):
        return 'an entry has another voice byte than 0'
    for it in arguments:
        if not low <= it <= high:
            return f'the argument {it} is not from {low:,} to {high:,}' if low < high else f'the argument {it} is not {low}'
    return None


# ---- reports

MEANINGS = {
    'found': 'the least placing for which every row holds',
    'none': 'there is no placing for which every row holds',
    'stopped': 'the search is not over, and nothing is claimed',
}


def picture(title, placing):
    """A line for each voice: its value, and a mark at each value that it may take."""
    labels = title.labels()
    width = max(map(len, labels), default=0)
    for label, voice, chosen in zip(labels, title.voices, placing):
        marks = ''.join('#' if it == chosen else '.' if it in voice.values else ' ' for it in range(max(voice.values) + 1))
        yield f'  {label:{width}}  {chosen:2}  {marks}'


def shown_report(title, report, source):
    """A report of `plan` in words and with a picture, where it is one of this title."""
    lines = report.decode('ascii', 'replace').split('\n')
    if lines[0].startswith('refused '):
        raise Unusable([f'{source}:1: the sheet was {lines[0]!r}; `title.py show SHEET` says why in words'])
    wanted = [r'found|none|stopped', r'opened \d{1,13}', r'exhausted \d{1,13}']
    if lines[0] == 'found':
        wanted += [rf'{place} \d{{1,2}}' for place in range(len(title.voices))]
    for number, pattern in enumerate([*wanted, ''], 1):
        if number > len(lines) or not re.fullmatch(pattern, lines[number - 1], re.ASCII):
            raise Unusable([f'{source}:{min(number, len(lines))}: this is no report of a title with {counted(len(title.voices), "voice")}'])
    if len(lines) > len(wanted) + 1:
        raise Unusable([f'{source}:{len(wanted) + 1}: more follows than a report of this title has'])
    placing = [int(it.split()[1]) for it in lines[3:-1]]
    for place, chosen in enumerate(placing):
        if chosen not in title.voices[place].values:
            raise Unusable([f'{source}:{place + 4}: {chosen} is no value that {title.labels()[place]} may take in this title'])
    head = f'{lines[0]}: {MEANINGS[lines[0]]} ({lines[1]}, {lines[2]})'
    return ''.join(f'{it}\n' for it in [head, *picture(title, placing)])


def planned(sheet, program):
    """What the program `plan` prints of a sheet."""
    folder = os.path.join(os.path.dirname(os.path.abspath(__file__)), '..', 'crates', 'plan')
    command, place = ([program], None) if program else (['rt', 'run'], folder)
    if not program and not os.path.exists(os.path.join(folder, 'out', 'plan')):
        print('title.py: proving and building the program, which takes some minutes ..', file=sys.stderr, flush=True)
    try:
        done = subprocess.run(command, cwd=place, input=sheet, stdout=subprocess.PIPE, stderr=subprocess.PIPE, check=False)
    except OSError as error:
        raise Failed(f'{command[0]} cannot be run: {error.strerror}') from error
    if done.returncode:
        said = done.stderr.decode('utf-8', 'replace').splitlines()[-20:]
        raise Failed('\n'.join([*said, f'{" ".join(command)} ended with status {done.returncode}']))
    return done.stdout


# ---- the commands

def content(path):
    try:
        if path == '-':
            # there is no such object where standard input is closed
            return sys.stdin.buffer.read() if sys.stdin else b''
        with open(path, 'rb') as file:
            return file.read()
    except OSError as error:
        raise Unusable([f'{path}: the file cannot be read: {error.strerror}']) from error


def read_title(path):
    data = content(path)
    try:
        text = data.decode('utf-8-sig')
    except UnicodeDecodeError as error:
        line = data.count(b'\n', 0, error.start) + 1
        raise Unusable([f'{path}:{line}: this is no text in UTF-8']) from error
    return Reader(path).read(text)


def place_title(options):
    title = read_title(options.title)
    report = planned(written_title(title), options.plan)
    try:
        return shown_report(title, report, 'report').encode()
    except Unusable as error:
        raise Failed(f'the program did not print a report of this title: {error.args[0][0]}') from error


def write_title(options):
    return written_title(read_title(options.title))


def report_title(options):
    return shown_report(read_title(options.title), content(options.report), options.report).encode()


def show_sheet(options):
    try:
        return text_of(read_sheet(content(options.sheet)[:MOST_SHEET])).encode()
    except Refusal as refusal:
        raise Unusable([f'{options.sheet}: {refusal}']) from refusal


def options_of(words):
    usage = 'tools/title.py place [--plan PROGRAM] TITLE | write TITLE | report TITLE REPORT | show SHEET'
    parser = argparse.ArgumentParser(prog='title.py', usage=usage, description=__doc__, formatter_class=argparse.RawDescriptionHelpFormatter)
    commands = parser.add_subparsers(required=True, metavar='place|write|report|show')
    for name, work, files in [('place', place_title, ['title']), ('write', write_title, ['title']),
                              ('report', report_title, ['title', 'report']), ('show', show_sheet, ['sheet'])]:
        command = commands.add_parser(name, prog=f'title.py {name}', usage=usage)
        command.set_defaults(work=work)
        if name == 'place':
            command.add_argument('--plan', metavar='PROGRAM')
        for file in files:
            command.add_argument(file, metavar=file.upper())
    return parser.parse_args(words)


def main():
    options = options_of(sys.argv[1:])
    try:
        made = options.work(options)
        if not sys.stdout:
            raise Failed('standard output is closed')
        sys.stdout.buffer.write(made)
        sys.stdout.buffer.flush()
    except Unusable as error:
        print(*error.args[0], sep='\n', file=sys.stderr)
        return 2
    except Failed as error:
        print(f'title.py: {error}', file=sys.stderr)
        return 1
    except KeyboardInterrupt:
        return 1
    except OSError as error:
        print(f'title.py: the output cannot be written: {error.strerror}', file=sys.stderr)
        # nothing more is flushed at the end
        os.dup2(os.open(os.devnull, os.O_WRONLY), sys.stdout.fileno())
        return 1
    return 0


if __name__ == '__main__':
    sys.exit(main())
