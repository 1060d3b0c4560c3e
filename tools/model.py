"""An independent model of docs/FORMS.md and docs/SHEETS.md, in plain Python.

It shares no text with the Rattle code: it is written from the two pages alone, and serves to
compare `desk` with on many inputs (tools/compare.py).
"""

MAX = 2**64 - 1
NONE = None

ARG_LISTS, GROUP_LISTS, SUB_LISTS = range(1, 10), range(10, 13), range(13, 16)
LETTER_LISTS = (9, 15)
MOST = [MAX, MAX, 1, 1, 0, 0, 0, 0, 0]
ACTIONS = ["set", "append", "set-true", "set-false", "count", "help", "help-short", "help-long", "version"]
REQUIRED, GLOBAL, EQUALS, LAST, TRAILING = 1 << 0, 1 << 1, 1 << 7, 1 << 8, 1 << 9
MULTICALL, NO_BINARY, PROPAGATE, NEGATE, NO_HELP, NO_VERSION, HAS_VERSION = (1 << i for i in range(7))


class Arg:
    kind = "a"

    def __init__(self, id=b"", long=None, letter=None, index=None, settings=0, action=0, terminated=False, range=None):
        self.id, self.long, self.letter, self.index = id, long, letter, index
        self.settings, self.action, self.terminated, self.range = settings, action, terminated, range
        self.lists = {n: [] for n in ARG_LISTS}
        self.mark = 0

    least = property(lambda self: (self.range or (1, 1))[0])
    most = property(lambda self: (self.range or (1, 1))[1])
    positional = property(lambda self: self.letter is None and self.long is None)
    many = property(lambda self: self.least != self.most or self.least > 1)
    multiple = property(lambda self: self.many or self.action == 1)
    index0 = property(lambda self: self.index or 0)

    def has(self, bit):
        return bool(self.settings & bit)


class Group:
    kind = "g"

    def __init__(self, id=b""):
        self.id = id
        self.lists = {n: [] for n in GROUP_LISTS}
        self.mark = 0


class Sub:
    kind = "s"

    def __init__(self, name=b"", long=None, letter=None):
        self.id, self.long, self.letter = name, long, letter
        self.lists = {n: [] for n in SUB_LISTS}
        self.mark = 0


class Form:
    def __init__(self, settings=0, args=(), groups=(), subs=(), cut=False):
        self.settings, self.cut = settings, cut
        self.args, self.groups, self.subs = list(args), list(groups), list(subs)


def with_flags(f):
    extra = []
    if not f.settings & NO_HELP:
        extra.append(Arg(b"help", b"help", ord("h"), action=5, range=(0, 0)))
    if not f.settings & NO_VERSION and f.settings & HAS_VERSION:
        extra.append(Arg(b"version", b"version", ord("V"), action=8, range=(0, 0)))
    args = f.args + extra
    return Form(f.settings, args[:80], f.groups, f.subs, f.cut or len(args) > 80)


def under(f, layers):
    for _ in range(layers):
        f = with_flags(f)
    return f


def keys(f):
    out = []
    for p, a in enumerate(f.args):
        if a.index is not None:
            out.append(("position", a.index, p))
            continue
        if a.letter is not None:
            out.append(("letter", a.letter, p))
        if a.long is not None:
            out.append(("long", a.long, p))
        out += [("letter", c, p) for c in a.lists[9]]
        out += [("long", x, p) for x in a.lists[8]]
    return out


def find(f, kind, value):
    for k, v, p in keys(f):
        if k == kind and v == value:
            return p
    return None


def breaches(f):
    out = []

    def tell(rule, first=None, second=None, list=0, item=0, other=0):
        out.append((rule, first, second, list, item, other))

    a_ids = {a.id for a in f.args}
    ids = a_ids | {g.id for g in f.groups}
    version = f.settings & HAS_VERSION
    if f.settings & PROPAGATE and not version:
        tell(1)
    for i, a in enumerate(f.args):
        if a.action == 8 and not version:
            tell(2, ("a", i))
    for i, s in enumerate(f.subs):
        if s.long and s.long[:1] == b"-":
            tell(3, ("s", i))
    for i, a in enumerate(f.args):
        me = ("a", i)
        for k, x in enumerate(a.lists[6]):
            if x == a.id:
                tell(4, me, None, 6, k)
        if a.most > MOST[a.action]:
            tell(5, me)
        if a.index is not None and not a.positional:
            tell(9, me)
        if a.index == 0:
            tell(10, me)
        if a.index is not None and a.most == 0:
            tell(11, me)
        if a.positional and a.index is None:
            tell(12, me)
        if a.range is None:
            tell(13, me)
        if a.least > 1 and a.has(EQUALS):
            tell(15, me)
        if a.most == 0:
            for bit in (4, 5, 6, 7, 8, 10, 11):
                if a.has(1 << bit):
                    tell(16, me, None, 0, bit)
        if f.settings & MULTICALL:
            tell(17, me)
        if a.long and a.long[:1] == b"-":
            tell(18, me)
        later = [(j, f.args[j]) for j in range(i + 1, len(f.args))]
        for j, b in later:
            if a.id == b.id:
                tell(19, me, ("a", j))
        for j, b in later:
            if a.long is not None and a.long == b.long:
                tell(20, me, ("a", j))
        for j, b in later:
            if a.letter is not None and a.letter == b.letter:
                tell(21, me, ("a", j))
        for j, b in later:
            if a.positional and b.positional and a.index is not None and a.index == b.index:
                tell(22, me, ("a", j))
        for n in range(1, 8):
            for k, x in enumerate(a.lists[n]):
                if n == 1 and x == a.id:
                    tell(23, me, None, n, k)
                if 2 <= n <= 5 and a.has(REQUIRED):
                    tell(24, me, None, n, k)
                if x not in ids:
                    tell(25, me, None, n, k)
        if a.has(LAST) and a.long is not None:
            tell(26, me)
        if a.has(LAST) and a.letter is not None:
            tell(27, me)
        if a.has(REQUIRED) and a.has(GLOBAL):
            tell(28, me)
    for i, g in enumerate(f.groups):
        me = ("g", i)
        for j in range(i + 1, len(f.groups)):
            if f.groups[j].id == g.id:
                tell(31, me, ("g", j))
        for j, a in enumerate(f.args):
            if a.id == g.id:
                tell(32, me, ("a", j))
        for k, x in enumerate(g.lists[10]):
            if x not in a_ids:
                tell(33, me, None, 10, k)
        for rule, n in ((34, 11), (35, 12)):
            for k, x in enumerate(g.lists[n]):
                if x not in ids:
                    tell(rule, me, None, n, k)

    def row(own, sub_list, arg_list):
        r = []
        for entries, kind, number in ((f.subs, "s", sub_list), (f.args, "a", arg_list)):
            for p, e in enumerate(entries):
                v = getattr(e, own)
                if v is not None:
                    r.append((v, (kind, p), 0, e.id))
                r += [(x, (kind, p), 1 + k, e.id) for k, x in enumerate(e.lists[number])]
        return r

    for rule, r in ((36, row("long", 14, 8)), (37, row("letter", 15, 9))):
        for i, (v, e, k, id) in enumerate(r):
            for w, d, m, other in r[i + 1:]:
                if v == w and (e[0], id) != (d[0], other):
                    tell(rule, e, d, 0, k, m)
    names = []
    for p, s in enumerate(f.subs):
        names += [(s.id, p, 0)] + [(x, p, 1 + k) for k, x in enumerate(s.lists[13])]
    for i, (x, p, k) in enumerate(names):
        for y, q, m in names[:i]:
            if x == y:
                tell(38 if k == 0 else 39, ("s", p), ("s", q), 0, k, m)

    positions = [a.index for a in f.args if a.index is not None]
    high, count = max(positions, default=0), len(positions)
    if high != count:
        tell(40)
    for i, a in enumerate(f.args):
        if a.has(TRAILING):
            if a.index0 == high:
                if a.has(LAST):
                    tell(41, ("a", i))
                if not a.multiple:
                    tell(42, ("a", i))
            else:
                tell(43, ("a", i))

    def first_at(n):
        return next((i for i, a in enumerate(f.args) if a.index == n), None)

    pos = [a for a in f.args if a.positional]
    if any(a.multiple and a.index0 != high for a in pos):
        l, s = first_at(high), first_at(high - 1) if high > 0 else None
        if l is not None and s is not None:
            L, S = f.args[l], f.args[s]
            both = ("a", l), ("a", s)
            if not L.has(REQUIRED) and not L.has(LAST) and not S.has(LAST) and not S.terminated:
                tell(44, *both)
            low = any(a.index0 < S.index0 and not a.terminated and a.least != a.most for a in pos)
            if not L.has(LAST) and (not S.multiple or low):
                tell(45, *both)
            wide = [a for a in pos if a.many and not a.terminated and a.least != a.most]
            if len(wide) > 1 and not (len(wide) == 2 and any(a is L for a in wide) and L.has(LAST) and S.multiple):
                tell(46, *both)
    for n in range(count, 0, -1):
        p = first_at(n)
        if p is None or f.args[p].has(REQUIRED):
            continue
        higher = [first_at(m) for m in range(n + 1, count + 1)]
        if any(q is not None and f.args[q].has(REQUIRED) and not f.args[q].has(LAST) for q in higher):
            tell(47, ("a", p))
    last = [i for i, a in enumerate(f.args) if a.positional and a.has(LAST)]
    for x, i in enumerate(last):
        for j in last[x + 1:]:
            tell(48, ("a", i), ("a", j))
    if f.subs and not f.settings & NEGATE:
        for i in last:
            if f.args[i].has(REQUIRED):
                tell(49, ("a", i))
    if f.settings & MULTICALL and f.settings & NO_BINARY:
        tell(50)
    if f.cut:
        tell(51)
    return out


def breach_line(b):
    place = lambda e: "-" if e is None else f"{e[0]}{e[1]}"
    return f"{b[0]} {place(b[1])} {place(b[2])} {b[3]} {b[4]} {b[5]}"


def scalar(c):
    return c < 0xD800 or 0xE000 <= c <= 0x10FFFF


def good_name(x):
    return 1 <= len(x) <= 32


class Book:
    """A book: its calls answer as `desk replay --plain` prints."""

    def __init__(self, layers=0):
        self.form, self.next, self.built, self.layers = Form(), 1, False, layers

    def tables(self):
        return {"a": self.form.args, "g": self.form.groups, "s": self.form.subs}

    def bearer(self, mark):
        for t in self.tables().values():
            for e in t:
                if e.mark == mark:
                    return e
        return None

    @staticmethod
    def bad_record(e):
        names = [e.id] + ([e.long] if getattr(e, "long", None) is not None else [])
        if not all(good_name(x) for x in names):
            return "refused 102"
        letter = getattr(e, "letter", None)
        if letter is not None and not scalar(letter):
            return "refused 103"
        return None

    @staticmethod
    def cleaned(e):
        if e.kind == "a":
            e.settings &= 0xFFF
            if e.index == 65535:
                e.index = None
        return e

    def enter(self, e):
        if self.built:
            return "not now"
        if e is None:
            return "refused 101"
        bad = self.bad_record(e)
        if bad:
            return bad
        table = self.tables()[e.kind]
        if len(table) >= {"a": 64, "g": 16, "s": 32}[e.kind]:
            return "refused 104"
        if self.next > 60000:
            return "refused 105"
        e = self.cleaned(e)
        e.mark = self.next
        self.next += 1
        table.append(e)
        return f"mark {e.mark}"

    def alter(self, mark, e):
        if self.built:
            return "not now"
        if e is None:
            return "refused 101"
        table = self.tables()[e.kind]
        at = next((i for i, x in enumerate(table) if x.mark == mark), None)
        if at is None:
            return "refused 106"
        bad = self.bad_record(e)
        if bad:
            return bad
        e = self.cleaned(e)
        e.mark, e.lists = mark, table[at].lists
        table[at] = e
        return "ok"

    def strike(self, mark):
        if self.built:
            return "not now"
        e = self.bearer(mark)
        if e is None:
            return "refused 106"
        self.tables()[e.kind].remove(e)
        return "ok"

    def attach(self, mark, n, item):
        if self.built:
            return "not now"
        e = self.bearer(mark)
        if e is None:
            return "refused 106"
        letter = isinstance(item, int)
        if n not in e.lists or (n in LETTER_LISTS) != letter:
            return "refused 107"
        if letter and not scalar(item):
            return "refused 103"
        if not letter and not good_name(item):
            return "refused 102"
        if sum(len(l) for t in self.tables().values() for x in t for l in x.lists.values()) >= 512:
            return "refused 108"
        e.lists[n].append(item)
        return "ok"

    def set(self, settings):
        if self.built:
            return "not now"
        self.form.settings = settings & 0x7F
        return "ok"

    def build(self):
        if self.built:
            return "not now"
        self.built = True
        return "ok"

    def reopen(self):
        if not self.built:
            return "not now"
        self.built = False
        return "ok"

    def report(self, room):
        if not self.built:
            return "not now"
        bs = breaches(under(self.form, self.layers))
        if room < len(bs):
            return f"refused 109 needs {len(bs)}"
        return "\n".join([f"breaches {len(bs)}"] + [breach_line(b) for b in bs])

    def first(self):
        if not self.built:
            return "not now"
        bs = breaches(under(self.form, self.layers))
        return breach_line(bs[0]) if bs else "none"

    def find(self, kind, value):
        if not self.built:
            return "not now"
        p = find(under(self.form, self.layers), kind, value)
        return "refused 110" if p is None else f"place {p}"


class Fault(Exception):
    def __init__(self, cause, place, layer):
        self.cause, self.place, self.layer = cause, place, layer

    def __str__(self):
        return f"refused {self.cause} at {self.place} in {self.layer}"


def read_sheet(buf):
    """The form of a sheet, or a Fault."""
    n = len(buf)
    if n < 8 or buf[n - 2:] != b"\x4f\x44":
        raise Fault(111, 0, "sheet")
    size, settings = int.from_bytes(buf[n - 8:n - 4], "big"), int.from_bytes(buf[n - 4:n - 2], "big")
    if size > n - 8:
        raise Fault(112, n - 8, "sheet")
    if settings & ~0x7F:
        raise Fault(114, n - 4, "sheet")
    form, end, at = Form(settings), n - 8, n - 8 - size
    owner, items = None, 0
    while at < end:
        start, kind = at, buf[at]
        if kind not in (1, 2, 3, 4):
            raise Fault(114, start, "entry")
        if end - at < 3 or end - at - 3 < int.from_bytes(buf[at + 1:at + 3], "big"):
            raise Fault(113, start, "entry")
        stop = at + 3 + int.from_bytes(buf[at + 1:at + 3], "big")
        if kind == 4 and owner is None:
            raise Fault(115, start, "entry")
        full = {1: len(form.args) >= 80, 2: len(form.groups) >= 16, 3: len(form.subs) >= 32, 4: items >= 1024}
        if full[kind]:
            raise Fault(116, start, "entry")
        at += 3

        def take(count, field):
            nonlocal at
            if stop - at < count:
                raise Fault(113, field, "field")
            at += count
            return buf[at - count:at]

        def number(count):
            return int.from_bytes(take(count, at), "big")

        def name(optional):
            field = at
            size = take(1, field)[0]
            if size > 32 or (size == 0 and not optional):
                raise Fault(102, field, "field")
            got = take(size, field)
            return got if size else None

        def letter(optional):
            field = at
            c = number(4)
            if optional and c == 0xFFFFFFFF:
                return None
            if not scalar(c):
                raise Fault(103, field, "field")
            return c

        def code(count, top=None, mask=None):
            field = at
            v = number(count)
            if (top is not None and v > top) or (mask is not None and v & ~mask):
                raise Fault(114, field, "field")
            return v

        if kind == 1:
            e = Arg(name(False), name(True), letter(True))
            index = number(2)
            e.index = None if index == 65535 else index
            e.settings = code(2, mask=0xFFF)
            e.action = code(1, top=8)
            e.terminated = bool(code(1, top=1))
            field = at
            if code(1, top=1):
                body = take(16, field)
                e.range = int.from_bytes(body[:8], "big"), int.from_bytes(body[8:], "big")
                if e.range[0] > e.range[1]:
                    raise Fault(101, field, "field")
            form.args.append(e)
            owner = e
        elif kind == 2:
            owner = Group(name(False))
            form.groups.append(owner)
        elif kind == 3:
            owner = Sub(name(False), name(True), letter(True))
            form.subs.append(owner)
        else:
            field = at
            n_list = number(1)
            if n_list not in owner.lists:
                raise Fault(107, field, "field")
            owner.lists[n_list].append(letter(False) if n_list in LETTER_LISTS else name(False))
            items += 1
        if at != stop:
            raise Fault(113, start, "entry")
    return form
