#!/usr/bin/env python3
"""Holds `desk` against the independent model of tools/model.py on random inputs.

  tools/compare.py replay [RUNS] [SEED]    random scripts of up to 900 calls
  tools/compare.py check [FILES] [SEED]    random sheets: sound, dirty, damaged, at the limits and past them

It prints the first difference, with the input in a file, or how many inputs agreed.
"""
import os
import random
import subprocess
import sys
import tempfile

here = os.path.dirname(os.path.abspath(__file__))
sys.path.insert(0, here)
import model

DESK = os.path.join(here, "..", "crates", "desk", "out", "desk")


def spell(x):
    return "".join(chr(b) if 33 <= b < 127 and b not in b"#\\" else f"\\x{b:02X}" for b in x)


class Maker:
    """Random records, from few names so that they meet."""

    def __init__(self, rng):
        self.rng = rng
        self.names = [b"a", b"b", b"help", b"version", b"-x", b"unpaid", bytes([0, 255, 32]), b"n" * 32]

    def name(self, bad=0.02):
        r = self.rng.random()
        if r < bad:
            return self.rng.choice([b"", b"x" * 33, b"y" * 40])
        return self.rng.choice(self.names) if r < 0.8 else bytes(self.rng.choice(b"abcde") for _ in range(self.rng.randint(1, 3)))

    def letter(self, bad=0.02):
        if self.rng.random() < bad:
            return self.rng.choice([0xD800, 0xDFFF, 0x110000, 0xFFFFFFFF])
        return self.rng.choice([ord(c) for c in "abhV"] + [0, 0xD7FF, 0xE000, 0x10FFFF])

    def maybe(self, p, f):
        return f() if self.rng.random() < p else None

    def range(self, bad=0.02):
        if self.rng.random() < bad:
            return (2, 1)
        return self.rng.choice([(0, 0), (1, 1), (0, 1), (1, 9), (2, 2), (0, model.MAX), (2, 5)])

    def arg(self, bad=0.02):
        rng = self.rng
        flagged = rng.random() < 0.6
        index = None
        if not flagged or rng.random() < 0.1:
            index = rng.choice([1, 2, 3, 4, 0, 65534, 65535]) if rng.random() < 0.9 else None
        settings = 0
        for bit in range(12):
            settings |= (rng.random() < 0.12) << bit
        return model.Arg(self.name(bad), self.maybe(0.7, lambda: self.name(bad)) if flagged else None,
                         self.maybe(0.7, lambda: self.letter(bad)) if flagged else None, index, settings,
                         rng.choice([0, 0, 0, 1, 2, 3, 4, 5, 6, 7, 8]), rng.random() < 0.2,
                         self.maybe(0.85, lambda: self.range(bad)))

    def group(self, bad=0.02):
        return model.Group(self.name(bad))

    def sub(self, bad=0.02):
        return model.Sub(self.name(bad), self.maybe(0.5, lambda: self.name(bad)), self.maybe(0.5, lambda: self.letter(bad)))

    def entry(self, bad=0.02):
        return self.rng.choice([self.arg, self.arg, self.arg, self.group, self.sub])(bad)


def record_words(e):
    if e.kind == "g":
        return f"group id={spell(e.id)}"
    words = ["subcommand", f"name={spell(e.id)}"] if e.kind == "s" else ["argument", f"id={spell(e.id)}"]
    if e.long is not None:
        words.append(f"long={spell(e.long)}")
    if e.letter is not None:
        words.append(f"letter=U+{e.letter:X}")
    if e.kind == "a":
        if e.index is not None:
            words.append(f"index={e.index}")
        if e.settings:
            words.append(f"settings=0x{e.settings:X}")
        if e.action:
            words.append(f"action={model.ACTIONS[e.action]}")
        if e.terminated:
            words.append("terminated")
        if e.range is not None:
            words.append(f"range={e.range[0]}..={e.range[1]}")
    return " ".join(words)


def run_call(rng, maker, book, focus):
    """One random call: its line, and the model's answer."""
    mark = rng.randint(1, max(1, book.next)) if rng.random() < 0.9 else rng.choice([0, 65535])
    live = [e.mark for t in book.tables().values() for e in t]
    if live and rng.random() < 0.8:
        mark = rng.choice(live)
    roll = rng.random()
    if book.built and roll < 0.9:
        kind = rng.choice(["report", "report", "first", "find", "find", "reopen", "reopen"])
    elif roll > 0.97:
        kind = rng.choice(["reopen", "report", "first", "find", "enter", "build"])
    else:
        kind = rng.choice(focus)
    if kind in ("enter", "alter"):
        e = maker.entry()
        unmade = e.kind == "a" and e.range is not None and e.range[0] > e.range[1]
        words = record_words(e)
        if rng.random() < 0.1 and e.kind == "a":
            e.settings |= 0xF000
            words = record_words(e)
        if kind == "enter":
            return f"enter {words}", book.enter(None if unmade else e)
        return f"alter {mark} {words}", book.alter(mark, None if unmade else e)
    if kind == "strike":
        return f"strike {mark}", book.strike(mark)
    if kind == "attach":
        n = rng.choice(list(range(1, 16))) if rng.random() < 0.95 else rng.choice([0, 16, 255])
        owner = book.bearer(mark)
        if owner is not None and rng.random() < 0.9:
            n = rng.choice(list(owner.lists))
        letter = (n in model.LETTER_LISTS) != (rng.random() < 0.03)
        item = maker.letter() if letter else maker.name()
        words = f"letter=U+{item:X}" if letter else f"name={spell(item)}"
        return f"attach {mark} {n} {words}", book.attach(mark, n, item)
    if kind == "set":
        s = rng.choice([0, 0x40, rng.randint(0, 127), rng.randint(0, 65535)])
        return f"set 0x{s:X}", book.set(s)
    if kind == "build":
        return "build", book.build()
    if kind == "reopen":
        return "reopen", book.reopen()
    if kind == "report":
        room = rng.choice([0, 1, 5, 40, 100000, model.MAX])
        return f"report {room}", book.report(room)
    if kind == "first":
        return "first", book.first()
    what = rng.choice(["position", "letter", "long"])
    if what == "position":
        value = rng.choice([0, 1, 2, 3, 65535])
        return f"find position {value}", book.find(what, value)
    if what == "letter":
        value = maker.letter()
        return f"find letter U+{value:X}", book.find(what, value)
    value = maker.name() or b"z"
    return f"find long {spell(value)}", book.find(what, value)


def replay(runs, seed):
    numbers = {}
    for run in range(runs):
        rng = random.Random(seed * 100003 + run)
        maker, layers = Maker(rng), rng.choice([0, 0, 1, 2, 3])
        book = model.Book(layers)
        focus = rng.choice([
            ["enter", "enter", "enter", "attach", "attach", "alter", "strike", "set", "build"],
            ["enter"] * 8 + ["attach", "build"],
            ["enter", "enter"] + ["attach"] * 30 + ["build"],
            ["enter", "strike", "attach", "alter", "build"],
        ])
        lines, expected = [], []
        if rng.random() < 0.05:
            book.next = 1
        for _ in range(rng.choice([3, 10, 40, 150, 900])):
            line, answer = run_call(rng, maker, book, focus)
            lines.append(line + rng.choice(["", "", "  # a comment"]))
            expected.append(answer)
            number = answer.split()[1] if answer.startswith("refused") else answer.split()[0]
            numbers[number] = numbers.get(number, 0) + 1
        text = "\n".join(lines) + "\n"
        got = subprocess.run([DESK, "replay", "--plain", "--flags", str(layers), "-"], input=text.encode(), capture_output=True)
        want = "\n".join(expected) + "\n"
        if got.stdout.decode("latin1") != want or got.returncode != 0:
            return report_difference(text.encode(), ".calls", want, got, f"--flags {layers}")
    print(f"{runs} runs agree; answers met: {dict(sorted(numbers.items()))}")
    return 0


def report_difference(data, suffix, want, got, note):
    with tempfile.NamedTemporaryFile(delete=False, suffix=suffix) as f:
        f.write(data)
    out = got.stdout.decode("latin1").split("\n")
    for i, (a, b) in enumerate(zip(want.split("\n") + ["(end)"], out + ["(end)"])):
        if a != b:
            print(f"{f.name} {note}: line {i + 1}: the model has `{a}`, desk has `{b}`")
            break
    else:
        print(f"{f.name} {note}: status {got.returncode}, {got.stderr.decode('latin1')}")
    return 1


def entry_bytes(kind, body):
    return bytes([kind]) + len(body).to_bytes(2, "big") + body


def name_bytes(x):
    return bytes([len(x or b"")]) + (x or b"")


def letter_bytes(c):
    return (0xFFFFFFFF if c is None else c).to_bytes(4, "big")


def record_bytes(e):
    if e.kind == "g":
        return entry_bytes(2, name_bytes(e.id))
    if e.kind == "s":
        return entry_bytes(3, name_bytes(e.id) + name_bytes(e.long) + letter_bytes(e.letter))
    body = name_bytes(e.id) + name_bytes(e.long) + letter_bytes(e.letter)
    body += (65535 if e.index is None else e.index).to_bytes(2, "big") + e.settings.to_bytes(2, "big")
    body += bytes([e.action, e.terminated])
    body += b"\0" if e.range is None else b"\1" + e.range[0].to_bytes(8, "big") + e.range[1].to_bytes(8, "big")
    return entry_bytes(1, body)


def sheet(rng, maker, bad):
    size = rng.choice([0, 1, 3, 10, 30, 127, 129])
    entries = [maker.entry(bad) for _ in range(size)]
    if rng.random() < 0.1:
        kind = rng.choice([maker.arg, maker.group, maker.sub])
        entries = [kind(bad) for _ in range({"arg": 80, "group": 16, "sub": 32}[kind.__name__] + rng.choice([0, 0, 1]))]
    body, items = b"", 0
    many = rng.random() < 0.1
    for e in entries:
        body += record_bytes(e)
        for _ in range(rng.choice([0, 0, 1, 3]) if not many else rng.randint(0, 40)):
            if items >= 1024 + (rng.random() < 0.1):
                break
            n = rng.choice(list(e.lists)) if rng.random() > bad else rng.randint(0, 255)
            item = letter_bytes(maker.letter(bad)) if n in model.LETTER_LISTS else name_bytes(maker.name(bad)[:255])
            body += entry_bytes(4, bytes([n]) + item)
            items += 1
    settings = rng.choice([0, 0x40, rng.randint(0, 127)])
    front = bytes(rng.randint(0, 255) for _ in range(rng.choice([0, 0, 5])))
    return front + body + len(body).to_bytes(4, "big") + settings.to_bytes(2, "big") + b"OD"


def damaged(rng, data):
    data = bytearray(data)
    for _ in range(rng.choice([1, 1, 2])):
        if not data:
            break
        at = rng.randrange(len(data)) if rng.random() < 0.7 else max(0, len(data) - rng.randint(1, 12))
        roll = rng.random()
        if roll < 0.5:
            data[at] = rng.choice([0, 1, 2, 4, 255, rng.randint(0, 255), (data[at] + 1) % 256])
        elif roll < 0.7:
            del data[at]
        elif roll < 0.8:
            del data[at:]
        else:
            data.insert(at, rng.randint(0, 255))
    return bytes(data)


def check(files, seed):
    causes = {}
    with tempfile.TemporaryDirectory() as folder:
        os.chmod(folder, 0o755)
        for start in range(0, files, 50):
            paths, wants, layers = [], [], random.Random(seed + start).choice([0, 0, 1, 2, 3])
            for k in range(start, min(start + 50, files)):
                rng = random.Random(seed * 100003 + k)
                maker = Maker(rng)
                data = sheet(rng, maker, rng.choice([0, 0, 0.02]))
                if rng.random() < 0.5:
                    data = damaged(rng, data)
                if rng.random() < 0.02:
                    data = bytes(rng.randint(0, 255) for _ in range(rng.randint(0, 20)))
                path = os.path.join(folder, f"{k}.sheet")
                with open(path, "wb") as f:
                    f.write(data)
                paths.append(path)
                try:
                    bs = model.breaches(model.under(model.read_sheet(data), layers))
                    answer = "\n".join([f"breaches {len(bs)}"] + [model.breach_line(b) for b in bs])
                    causes["accepted"] = causes.get("accepted", 0) + 1
                except model.Fault as fault:
                    answer = str(fault)
                    key = f"{fault.cause} {fault.layer}"
                    causes[key] = causes.get(key, 0) + 1
                wants.append(f"file {path}\n{answer}\n")
            got = subprocess.run([DESK, "check", "--plain", "--exit-zero", "--flags", str(layers)] + paths, capture_output=True)
            if got.stdout.decode("latin1") != "".join(wants):
                out = got.stdout.decode("latin1")
                for path, want in zip(paths, wants):
                    if not out.startswith(want):
                        with open(path, "rb") as f:
                            data = f.read()
                        return report_difference(data, ".sheet", want, type("G", (), {"stdout": out.encode("latin1"), "stderr": got.stderr, "returncode": got.returncode}), f"--flags {layers}")
                    out = out[len(want):]
    print(f"{files} files agree; met: {dict(sorted(causes.items()))}")
    return 0


if __name__ == "__main__":
    if len(sys.argv) < 2 or sys.argv[1] not in ("replay", "check"):
        print(__doc__)
        sys.exit(2)
    count = int(sys.argv[2]) if len(sys.argv) > 2 else 300
    seed = int(sys.argv[3]) if len(sys.argv) > 3 else 1
    sys.exit({"replay": replay, "check": check}[sys.argv[1]](count, seed))
