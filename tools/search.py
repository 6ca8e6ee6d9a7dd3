#!/usr/bin/env python3
"""The search and the calls of docs/RULES.md over plain sets of Python, written independently of the crates: what the programs `plan`, `example_harbour` and `example_histories` should print.
It is neither proved nor needed to build. usage: tools/search.py sheet [WORDS] < SHEET, over a shelf of so many words, 4096 if left out; tools/search.py harbour > crates/example_harbour/stdout;
tools/search.py histories > crates/example_histories/stdout"""
import os
import sys

WIRES = [4, 4, 5, 5, 4, 7, 6, 7]

def turn(row, s):
    """One turn of a row on the list of sets s; says whether it changed one."""
    before = [set(x) for x in s]
    if row[0] == "A":
        for m in row[1]:
            if len(s[m]) == 1:
                v = next(iter(s[m]))
                for n in row[1]:
                    if n != m:
                        s[n].discard(v)
    elif row[0] == "L":
        low = [min(c * v for v in s[x]) for x, c in row[2]]
        cuts = [{v for v in s[x] if c * v + sum(low) - own > row[1]} for (x, c), own in zip(row[2], low)]
        for (x, _), gone in zip(row[2], cuts):
            s[x] -= gone
    elif row[0] == "C":
        live = [(x, p, a) for x, p, a in row[1] if any((v == a) == p for v in s[x])]
        if not live:
            s[row[1][0][0]].clear()
        elif len(live) == 1:
            x, p, a = live[0]
            s[x] -= {v for v in s[x] if (v == a) != p}
    else:
        _, x, y, entries = row
        s[x] &= {i for i in s[x] if i < len(entries) and entries[i] in s[y]}
        s[y] &= {entries[i] for i in s[x]}
    return s != before

def trace(row, s):
    """A row's trace: None where it is settled, else its content."""
    fixed = lambda x: len(s[x]) == 1
    only = lambda x: next(iter(s[x]))
    if row[0] == "A":
        used = [only(m) for m in row[1] if fixed(m)]
        return None if len(used) == len(row[1]) == len(set(used)) else sum(1 << v for v in set(used))
    if row[0] == "L":
        high = sum(max(c * v for v in s[x]) for x, c in row[2])
        return None if high <= row[1] else sum(c * only(x) for x, c in row[2] if fixed(x)) + 4_000_000
    if row[0] == "C":
        return None if any(all((v == a) == p for v in s[x]) for x, p, a in row[1]) else 0
    _, x, y, entries = row
    if fixed(x) and fixed(y):
        return None if entries[only(x)] == only(y) else 0
    return entries[only(x)] if fixed(x) else only(y) if fixed(y) else 0

def propagate(rows, s):
    again = True
    while again:
        again = False
        for r in rows:
            if turn(r, s):
                if any(not x for x in s):
                    return False
                again = True
    return all(s)

def key(rows, s):
    return (tuple(0 if len(x) == 1 else frozenset(x) for x in s), tuple(trace(r, s) for r in rows))

class Search:
    """A search that can be stopped; `words` is the shelf's memory, 0 for the bare store."""
    def __init__(self, opening, rows, words):
        self.opening, self.rows, self.words = opening, rows, words
        self.used, self.held, self.levels = 0, set(), []
        self.opened = self.exhausted = self.hits = 0
        self.result = None
        self.fresh = True

    def keep(self, k):
        long = len(self.opening) + 2 * len(self.rows)
        if k not in self.held and long <= max(self.words - self.used - 1, 0):
            self.held.add(k)
            self.used += long + 1

    def fail(self):
        while self.levels:
            if self.levels[-1][2]:
                return
            sets, _, _ = self.levels.pop()
            self.exhausted += 1
            self.keep(key(self.rows, sets))
        self.result = "none"

    def step(self):
        if self.fresh:
            self.fresh = False
            s = [set(x) for x in self.opening]
        else:
            sets, voice, left = self.levels[-1]
            s = [set(x) for x in sets]
            s[voice] = {left.pop(0)}
        self.opened += 1
        if not propagate(self.rows, s):
            return self.fail()
        voice = next((i for i, x in enumerate(s) if len(x) != 1), None)
        if voice is None:
            self.result = [next(iter(x)) for x in s]
            return None
        if key(self.rows, s) in self.held:
            self.hits += 1
            return self.fail()
        self.levels.append((s, voice, sorted(s[voice])))

    def solve(self, budget):
        while self.result is None and budget > 0:
            self.step()
            budget -= 1
        return "stopped" if self.result is None else self.result

# ---- the calls of a table

# each letter's body length
BODY = {"A": 1, "L": 5, "C": 1, "E": 3}

def signed(low_first):
    return int.from_bytes(bytes(low_first), "little", signed=True)

def read_kind(letter, body, members):
    """The row with these members, or 9 where its kind's own rule is broken."""
    voices, arguments = [x for x, _ in members], [a for _, a in members]
    if letter == "A":
        good = not any(arguments) and len(set(voices)) == len(voices)
        return ("A", voices) if good else 9
    if letter == "L":
        bound = signed(body[1:])
        good = abs(bound) <= 3_000_000 and all(abs(c) <= 1_000 for c in arguments)
        return ("L", bound, members) if good else 9
    if letter == "C":
        good = all(0 <= a <= 127 for a in arguments)
        return ("C", [(x, a < 64, a % 64) for x, a in members]) if good else 9
    good = not any(voices) and all(0 <= a <= 63 for a in arguments)
    return ("E", body[1], body[2], arguments) if good else 9

def read_row(bs, voices):
    """The row that the bytes stand for, or the number under which they are refused where so many voices are declared."""
    letter = chr(bs[0]) if bs else ""
    if letter not in BODY:
        return 2
    if len(bs) < 2 or not 1 <= bs[1] <= 32:
        return 5
    head = 1 + BODY[letter]
    if len(bs) != head + 4 * bs[1]:
        return 6
    parts = [bs[i:i + 4] for i in range(head, len(bs), 4)]
    if any(p[0] != 0x4D for p in parts):
        return 7
    members = [(p[1], signed(p[2:])) for p in parts]
    named = [bs[2], bs[3]] if letter == "E" else [x for x, _ in members]
    if any(x >= voices for x in named):
        return 8
    return read_kind(letter, bs[1:head], members)

class Table:
    """A table over a store with so many words. Each call answers a line of text."""
    def __init__(self, words):
        self.words = words
        self.wipe()

    def begin(self):
        self.search = Search(self.voices, self.rows, self.words)
        return "done"

    def wipe(self):
        self.voices, self.rows, self.bytes = [], [], 0
        return self.begin()

    def declare(self, s):
        if not s:
            return "refused 10"
        if len(self.voices) >= 80:
            return "refused 11"
        self.voices.append(s)
        return self.begin()

    def post(self, bs):
        row = read_row(bs, len(self.voices))
        if isinstance(row, int):
            return f"refused {row}"
        if len(self.rows) >= 120 or self.bytes + len(bs) > 8192:
            return "refused 12"
        self.rows.append(row)
        self.bytes += len(bs)
        return self.begin()

    def solve(self, budget):
        if not 1 <= budget <= 1_000_000:
            return "refused 13"
        if self.search.result is None and self.search.opened + budget > 1_000_000_000_000:
            return "refused 14"
        r = self.search.solve(budget)
        return r if isinstance(r, str) else " ".join(["found", *map(str, r)])

    def read(self, buffer):
        found = self.search.result
        if not isinstance(found, list):
            return "refused 15"
        if len(buffer) < len(found):
            return "refused 16"
        return " ".join([f"wrote {len(found)}:", *map(str, found + buffer[len(found):])])

    def standing(self):
        """What the search has come to, the nodes opened and those exhausted."""
        s = self.search
        word = "found" if isinstance(s.result, list) else s.result or "stopped"
        return f"{word} {s.opened} {s.exhausted}"

    def call(self, line):
        name, *words = line.split()
        if name == "declare":
            return self.declare({int(w) for w in words})
        if name == "post":
            return self.post([int(w, 16) for w in words])
        if name == "solve":
            return self.solve(int(words[0]))
        if name == "read":
            return self.read([255] * int(words[0]))
        assert name == "wipe", line
        return self.wipe()

def history():
    """The calls of crates/example_histories/stdin, one line each."""
    folder = os.path.dirname(os.path.abspath(__file__))
    with open(os.path.join(folder, "..", "crates", "example_histories", "stdin"), encoding="utf-8") as f:
        for line in f.read().splitlines():
            if line and not line.startswith("#"):
                count, times, call = line.partition(" times ")
                yield from [call] * int(count) if times else [line]

def histories():
    calls = list(history())
    for name, words in [("bare store", 0), ("shelf of 4096 words", 4096), ("shelf of 44 words", 44)]:
        print(f"{name}:")
        table = Table(words)
        for line in calls:
            print(f"{table.call(line)} | {table.standing()}")

# ---- what `plan` prints of a sheet

def row_length(bs):
    """How many bytes the row at the front has: as many as letter and count ask for, or all."""
    body = BODY.get(chr(bs[0]))
    return len(bs) if body is None else 1 + body + 4 * (bs[1] if len(bs) > 1 else 0)

def load(table, bs):
    """Gives the table the sheet; answers the line of its first fault, or None."""
    at = 0
    while True:
        if at == len(bs):
            return f"refused 1 at {at} in sheet"
        if bs[at] == 0x5A:
            return None if at + 1 == len(bs) else f"refused 4 at {at + 1} in sheet"
        if bs[at] == 0x56:
            if table.rows:
                return f"refused 3 at {at} in sheet"
            if len(bs) < at + 9:
                return f"refused 6 at {at} in sheet"
            mask = int.from_bytes(bs[at + 1:at + 9], "little")
            said, length = table.declare({v for v in range(64) if mask >> v & 1}), 9
        else:
            length = row_length(bs[at:])
            said = table.post(list(bs[at:at + length]))
        if said != "done":
            return f"{said} at {at} in {'row' if int(said.split()[1]) < 10 else 'table'}"
        at += length

def sheet(words="4096"):
    table = Table(int(words))
    fault = load(table, sys.stdin.buffer.read()[:20_000])
    if fault:
        return print(fault)
    found = table.search.solve(1_000_000)
    print(found if isinstance(found, str) else "found")
    print(f"opened {table.search.opened}\nexhausted {table.search.exhausted}")
    for voice, value in enumerate([] if isinstance(found, str) else found):
        print(voice, value)

# ---- the title of `example_harbour`

NAMES = ["lead", "bass", "pad", "kick", "snare", "hat", "strings", "choir", "strings bank", "choir bank"]
OPENING = [{0, 1, 2, 3}, {1}, {0, 1, 2, 3}, {0, 2, 3, 4}, {2, 3, 4, 5}, {3, 4, 5, 6, 7}, set(range(8)), set(range(8)), {4, 5, 6}, {4, 5, 6}]
ROWS = [("A", [0, 1, 2, 3, 4, 5]), ("L", 26, [(1, 2), (3, 3), (4, 2), (5, 1)]), ("C", [(6, True, 0), (2, False, 2)]), ("E", 6, 8, WIRES), ("E", 7, 9, WIRES),
        ("L", -4, [(6, 1), (7, -1)]), ("L", 71, [(3, 5), (4, 6), (5, 3), (7, 5)]), ("L", -71, [(3, -5), (4, -6), (5, -3), (7, -5)])]

def harbour():
    s = [set(x) for x in OPENING]
    alive = propagate(ROWS, s)
    show = lambda x: "{" + " ".join(map(str, sorted(x))) + "}"
    print(f"title: Harbour at Dawn, {len(OPENING)} voices, {len(ROWS)} rows")
    print("voices (lanes and banks before -> after)")
    for n, a, b in zip(NAMES, OPENING, s):
        print(f"  {n}: {show(a)} -> {show(b)}")
    print("rows (traces after)")
    words = {"A": "all different", "L": "weighted sum at most", "C": "at least one of", "E": "entry of a table"}
    for i, r in enumerate(ROWS):
        t = trace(r, s)
        print(f"  {i} {words[r[0]]}: " + ("settled" if t is None else f"open, content {t}"))
    print("a round changes nothing more" if alive else "some voice has no place left")
    print("solving, 4 nodes at a time")
    search = Search(OPENING, ROWS, 4096)
    while True:
        r = search.solve(4)
        word = r if isinstance(r, str) else "found"
        print(f"  {word}: opened {search.opened}, exhausted {search.exhausted}")
        if word != "stopped":
            break
    if word == "found":
        print("placing")
        for n, v in zip(NAMES, r):
            print(f"  {n} {v}")
    built_row()

def built_row():
    """Two voices {1,3}, and the bytes of a row that says that they differ: the row that is built with a ticket."""
    print("a row built with a ticket")
    row = read_row(bytes.fromhex("41 02 4D 00 00 00 4D 01 00 00"), 2)
    print(f"refused {row}" if isinstance(row, int) else "one row posted, one scrapped")
    r = Search([{1, 3}, {1, 3}], [row], 0).solve(10)
    print("not found" if isinstance(r, str) else "found")
    for i, v in enumerate(r):
        print(f"{i} {v}")

if __name__ == "__main__":
    {"sheet": sheet, "harbour": harbour, "histories": histories}[sys.argv[1]](*sys.argv[2:])
