"""Descriptions run by Python itself, and their circuits by the definition of FHDL (docs/language.md).

A plain program that stands apart from the proofs: a description is executed as the Python that it is, over the classes
of this file, and `Run` computes what crates/lx_circuit defines. It takes lawful descriptions of plain modules alone.
"""
import builtins
import math


def bits_for(v):
    return max(1, v.bit_length()) if v >= 0 else (-v - 1).bit_length() + 1


def wrapped(v, bits, signed):
    v %= 1 << bits
    return v - (1 << bits) if signed and v >> bits - 1 else v


# ---- expressions, each with its bits, its sign and its value under the values of signals


class Expr:
    def __add__(self, other):
        return Binary("+", self, other)

    def __radd__(self, other):
        return Binary("+", other, self)

    def __sub__(self, other):
        return Binary("-", self, other)

    def __rsub__(self, other):
        return Binary("-", other, self)

    def __mul__(self, other):
        return Binary("*", self, other)

    def __rmul__(self, other):
        return Binary("*", other, self)

    def __and__(self, other):
        return Binary("&", self, other)

    def __rand__(self, other):
        return Binary("&", other, self)

    def __or__(self, other):
        return Binary("|", self, other)

    def __ror__(self, other):
        return Binary("|", other, self)

    def __xor__(self, other):
        return Binary("^", self, other)

    def __rxor__(self, other):
        return Binary("^", other, self)

    def __lshift__(self, other):
        return Binary("<<", self, other)

    def __rlshift__(self, other):
        return Binary("<<", other, self)

    def __rshift__(self, other):
        return Binary(">>", self, other)

    def __rrshift__(self, other):
        return Binary(">>", other, self)

    def __eq__(self, other):
        return Binary("==", self, other)

    def __ne__(self, other):
        return Binary("!=", self, other)

    def __lt__(self, other):
        return Binary("<", self, other)

    def __le__(self, other):
        return Binary("<=", self, other)

    def __gt__(self, other):
        return Binary(">", self, other)

    def __ge__(self, other):
        return Binary(">=", self, other)

    def __invert__(self):
        return Unary("~", self)

    def __neg__(self):
        return Unary("-", self)

    __hash__ = object.__hash__

    def __bool__(self):
        raise TypeError("an expression is no condition")

    def __len__(self):
        return self.bits

    def __getitem__(self, key):
        if isinstance(key, slice):
            low, high, _ = key.indices(self.bits)
        else:
            low = key + self.bits if key < 0 else key
            high = low + 1
        if not 0 <= low < high <= self.bits:
            raise IndexError("no such bits")
        return Slice(self, low, high)

    def eq(self, value):
        return Assign(self, expr(value))


def expr(v):
    return v if isinstance(v, Expr) else Constant(v)


class Constant(Expr):
    def __init__(self, v, s=None):
        stated = s if isinstance(s, tuple) else (bits_for(v), v < 0) if s is None else (s, False)
        self.bits, self.signed = stated[0], bool(stated[1])
        self.number = wrapped(v, self.bits, self.signed)

    def value(self, values):
        return self.number


def joined(parts):
    """The most bits and the sign of parts, where unsigned beside signed ones count a bit more."""
    signed = any(p.signed for p in parts)
    return [p.bits + (signed and not p.signed) for p in parts], signed


class Unary(Expr):
    def __init__(self, sign, of):
        self.sign, self.of = sign, of
        self.bits, self.signed = (of.bits, of.signed) if sign == "~" else (of.bits + 1, True)

    def value(self, values):
        v = self.of.value(values)
        if self.sign == "-":
            return -v
        return -v - 1 if self.signed else (1 << self.bits) - 1 - v


VALUES = {
    "+": lambda a, b: a + b,
    "-": lambda a, b: a - b,
    "*": lambda a, b: a * b,
    "&": lambda a, b: a & b,
    "|": lambda a, b: a | b,
    "^": lambda a, b: a ^ b,
    "<<": lambda a, b: a << b,
    ">>": lambda a, b: a >> b,
    "==": lambda a, b: int(a == b),
    "!=": lambda a, b: int(a != b),
    "<": lambda a, b: int(a < b),
    "<=": lambda a, b: int(a <= b),
    ">": lambda a, b: int(a > b),
    ">=": lambda a, b: int(a >= b),
}


class Binary(Expr):
    def __init__(self, sign, left, right):
        self.sign, self.left, self.right = sign, expr(left), expr(right)
        (n, m), signed = joined([self.left, self.right])
        if sign in ("<<", ">>"):
            n, signed = self.left.bits, self.left.signed
            self.bits, self.signed = (n + 2**self.right.bits - 1 if sign == "<<" else n), signed
        elif sign in "+-":
            self.bits, self.signed = max(n, m) + 1, signed or sign == "-"
        elif sign == "*":
            self.bits, self.signed = n + m, signed
        elif sign in "&|^":
            self.bits, self.signed = max(n, m), signed
        else:
            self.bits, self.signed = 1, False

    def value(self, values):
        return VALUES[self.sign](self.left.value(values), self.right.value(values))


class Mux(Expr):
    def __init__(self, c, a, b):
        self.cond, self.yes, self.no = expr(c), expr(a), expr(b)
        bits, self.signed = joined([self.yes, self.no])
        self.bits = max(bits)

    def value(self, values):
        return (self.yes if self.cond.value(values) else self.no).value(values)


class Cat(Expr):
    def __init__(self, *parts):
        self.parts = [expr(p) for p in parts]
        self.bits, self.signed = sum(p.bits for p in self.parts), False

    def value(self, values):
        whole = low = 0
        for p in self.parts:
            whole |= p.value(values) % (1 << p.bits) << low
            low += p.bits
        return whole


class Replicate(Expr):
    def __init__(self, a, k):
        self.of, self.count = expr(a), k
        self.bits, self.signed = self.of.bits * k, False

    def value(self, values):
        return Cat(*[self.of] * self.count).value(values)


class Slice(Expr):
    def __init__(self, of, low, high):
        self.of, self.low = of, low
        self.bits, self.signed = high - low, False

    def value(self, values):
        return (self.of.value(values) >> self.low) % (1 << self.bits)


class Pick(Expr):
    def __init__(self, items, index):
        self.items, self.index = [expr(i) for i in items], index
        bits, self.signed = joined(self.items)
        self.bits = max(bits)

    def item(self, values):
        return self.items[min(self.index.value(values), len(self.items) - 1)]

    def value(self, values):
        return self.item(values).value(values)


class Array:
    def __init__(self, items):
        self.items = items

    def __len__(self):
        return len(self.items)

    def __getitem__(self, key):
        return Pick(self.items, key) if isinstance(key, Expr) else self.items[key]


class Signal(Expr):
    all = []

    def __init__(self, bits_sign=None, min=0, max=2, reset=0, reset_less=False, name=None):
        if bits_sign is None:
            signed = min < 0 or max - 1 < 0
            ends = [bits_for(v if v < 0 else -v - 1) if signed else bits_for(v) for v in (min, max - 1)]
            bits_sign = (builtins.max(ends), signed)
        self.bits, self.signed = bits_sign if isinstance(bits_sign, tuple) else (bits_sign, False)
        self.reset, self.reset_less = wrapped(reset, self.bits, self.signed), reset_less
        Signal.all.append(self)

    def value(self, values):
        return values[self]


# ---- statements: the pieces (signal, low bit, bits, number) that are taken, and the signals that are driven


class Assign:
    def __init__(self, target, value):
        self.target, self.source = target, value

    def taken(self, values):
        yield from pieces(self.target, self.source.value(values), values)

    def driven(self):
        return signals_of(self.target)


def target_bits(t):
    if isinstance(t, Cat):
        return sum(target_bits(p) for p in t.parts)
    return max(target_bits(i) for i in t.items) if isinstance(t, Pick) else t.bits


def pieces(t, number, values):
    if isinstance(t, Cat):
        for p in t.parts:
            yield from pieces(p, number, values)
            number >>= target_bits(p)
    elif isinstance(t, Pick):
        yield from pieces(t.item(values), number, values)
    elif isinstance(t, Slice):
        yield t.of, t.low, t.bits, number % (1 << t.bits)
    else:
        yield t, 0, t.bits, number % (1 << t.bits)


def signals_of(t):
    if isinstance(t, (Cat, Pick)):
        return set().union(*[signals_of(p) for p in (t.parts if isinstance(t, Cat) else t.items)])
    return {t.of if isinstance(t, Slice) else t}


def leaves(x):
    return [leaf for item in x for leaf in leaves(item)] if isinstance(x, (list, tuple)) else [x]


class If:
    def __init__(self, c, *body, before=()):
        self.branches, self.rest = [*before, (expr(c), leaves(body))], []

    def Elif(self, c, *body):
        return If(c, *body, before=self.branches)

    def Else(self, *body):
        whole = If(0)
        whole.branches, whole.rest = self.branches, leaves(body)
        return whole

    def with_bodies(self, change):
        whole = If(0)
        whole.branches, whole.rest = [(cond, change(body)) for cond, body in self.branches], change(self.rest)
        return whole

    def taken(self, values):
        for cond, body in self.branches:
            if cond.value(values):
                return [piece for s in body for piece in s.taken(values)]
        return [piece for s in self.rest for piece in s.taken(values)]

    def driven(self):
        return set().union(*[s.driven() for _, body in [*self.branches, (None, self.rest)] for s in body])


class Case:
    def __init__(self, e, d):
        self.on, self.arms = expr(e), {key: leaves([body]) for key, body in d.items()}

    def with_bodies(self, change):
        return Case(self.on, {key: change(body) for key, body in self.arms.items()})

    def taken(self, values):
        body = self.arms.get(self.on.value(values), self.arms.get("default", []))
        return [piece for s in body for piece in s.taken(values)]

    def driven(self):
        return set().union(*[s.driven() for body in self.arms.values() for s in body])


# ---- state machines


class NextState:
    def __init__(self, name):
        self.name = name


class NextValue:
    def __init__(self, target, value):
        self.assign = target.eq(value)


class FSM:
    """Its states are numbered in the order of their first `act`. It stands for statements of `comb` and of `sys`."""

    def __init__(self, reset_state=None):
        self.start, self.bodies, self.asked, self.state = reset_state, {}, {}, Signal()
        mention("sys")

    def act(self, name, *body):
        self.bodies.setdefault(name, []).extend(leaves(body))

    def ongoing(self, name):
        if name not in self.asked:
            self.asked[name] = Signal()
        return self.asked[name]

    def number(self, name):
        return list(self.bodies).index(name)

    def part(self, body, name):
        """What these statements of a state do in `comb`, or at a clock edge of `sys`."""
        return [at for s in body for at in self.parts(s, name)]

    def parts(self, s, name):
        if isinstance(s, (If, Case)):
            yield s.with_bodies(lambda body: self.part(body, name))
        elif isinstance(s, NextState):
            yield from [self.state.eq(self.number(s.name))] * (name == "sys")
        elif isinstance(s, NextValue):
            yield from [s.assign] * (name == "sys")
        else:
            yield from [s] * (name == "comb")

    def statements(self):
        self.state.bits = bits_for(len(self.bodies) - 1)
        self.state.reset = 0 if self.start is None else self.number(self.start)
        states = [(self.state == k, body) for k, body in enumerate(self.bodies.values())]
        taken = [(name, If(here, self.part(body, name))) for here, body in states for name in ("comb", "sys")]
        return taken + [("comb", signal.eq(self.state == self.number(name))) for name, signal in self.asked.items()]


# ---- modules


class ClockDomain:
    """It is declared by the first attribute that is bound to it itself."""

    def __init__(self, reset_less=False):
        self.has_reset, self.is_declared = not reset_less, False

    def declare(self, attribute):
        name = attribute[len("cd_") :] if attribute.startswith("cd_") else attribute
        if not self.is_declared:
            mention(name)
            Module.declared.setdefault(name, self.has_reset)
        self.is_declared = True


class MultiReg:
    """Passes `i` to `o` through registers that no reset touches."""

    def __init__(self, i, o, odomain="sys", n=2):
        i = expr(i)
        regs = [Signal((i.bits, i.signed), reset_less=True) for _ in range(n)]
        mention(odomain)
        Module.crossings += [(odomain, r.eq(before)) for before, r in zip([i, *regs], regs)]
        Module.crossings.append(("comb", o.eq(regs[-1] if regs else i)))


WRITE_FIRST, READ_FIRST, NO_CHANGE = "WRITE_FIRST", "READ_FIRST", "NO_CHANGE"


class Memory:
    """Words that ports read and write."""

    def __init__(self, width, depth, init=()):
        self.width, self.depth = width, depth
        self.first = [v % (1 << width) for v in init] + [0] * (depth - len(init))

    def get_port(self, *given, **named):
        return Port(self, *given, **named)


class Port:
    all = []

    def __init__(self, memory, write_capable=False, async_read=False, we_granularity=0, mode=WRITE_FIRST, clock_domain="sys"):
        self.memory, self.mode, self.is_now = memory, mode, bool(async_read)
        self.part = we_granularity or memory.width
        self.adr, self.dat_r = Signal(bits_for(memory.depth - 1)), Signal(memory.width)
        if write_capable:
            self.dat_w, self.we = Signal(memory.width), Signal(memory.width // self.part)
        self.domain = clock_domain if write_capable or not async_read else None
        if self.domain is not None:
            mention(self.domain)
        Port.all.append(self)

    def writes(self):
        return hasattr(self, "we")

    def shown(self, values, words, kept):
        """What it reads, of words that stand now, and by what it kept."""
        if self.is_now or self.mode == WRITE_FIRST:
            at = values[self.adr] if self.is_now else kept
            return words[at] if at < len(words) else 0
        return kept

    def keeps(self, values, words, kept):
        """What it keeps from a clock edge on, of values and words before it."""
        if self.mode == WRITE_FIRST:
            return values[self.adr]
        if self.mode == NO_CHANGE and self.writes() and values[self.we]:
            return kept
        return words[values[self.adr]] if values[self.adr] < len(words) else 0

    def write(self, values, words):
        """Writes the parts that `we` marks."""
        at = values[self.adr]
        if self.writes() and at < len(words):
            for k in range(self.we.bits):
                if values[self.we] >> k & 1:
                    mask = (1 << self.part) - 1 << k * self.part
                    words[at] = words[at] & ~mask | values[self.dat_w] & mask


def mention(domain):
    if domain not in Module.mentioned:
        Module.mentioned.append(domain)


class Part:
    """`comb`, `sync`, a domain of `sync`, `submodules`, `specials` or `clock_domains` of a module."""

    def __init__(self, module, name):
        self.__dict__.update(module=module, name=name)

    def __iadd__(self, added):
        self.module.add(self.name, leaves([added]))
        return self

    def __getattr__(self, domain):
        return Part(self.module, domain)

    def __setattr__(self, name, value):
        if not isinstance(value, Part):
            self.module.add(self.name, [value])
            self.module.bind(name, value)


PARTS = {"comb": "comb", "sync": "sys", "submodules": "submodules", "specials": "specials", "clock_domains": "clock_domains"}


class Module:
    adds_by_binding = False
    mentioned = []
    declared = {}
    crossings = []

    def own(self):
        return self.__dict__.setdefault("(statements)", []), self.__dict__.setdefault("(modules)", [])

    def __getattr__(self, name):
        if name not in PARTS:
            raise AttributeError(name)
        return Part(self, PARTS[name])

    def __setattr__(self, name, value):
        if name not in PARTS:
            if self.adds_by_binding and isinstance(value, (Module, FSM)):
                self.add("submodules", [value])
            self.bind(name, value)

    def bind(self, name, value):
        if isinstance(value, ClockDomain):
            value.declare(name)
        object.__setattr__(self, name, value)

    def add(self, name, things):
        statements, modules = self.own()
        if name == "submodules":
            modules.extend(things)
        if name in ("submodules", "specials", "clock_domains"):
            return
        statements.extend((name, s) for s in things)
        if things and name != "comb":
            mention(name)

    def statements(self):
        statements, modules = self.own()
        return statements + [s for m in modules for s in m.statements()]


class LiteXModule(Module):
    adds_by_binding = True


class AutoCSR:
    pass


def log2_int(n):
    return int(math.log2(n))


NAMES = {
    x.__name__: x
    for x in (
        Signal, Constant, Cat, Replicate, Mux, Array, If, Case, FSM, NextState, NextValue, Memory, ClockDomain, MultiReg,
        Module, LiteXModule, AutoCSR, bits_for, log2_int,
    )
} | {"C": Constant, "WRITE_FIRST": WRITE_FIRST, "READ_FIRST": READ_FIRST, "NO_CHANGE": NO_CHANGE}


def top_of(text):
    """The module of the last class of a description."""
    Signal.all, Port.all, Module.mentioned, Module.declared, Module.crossings = [], [], [], {}, []
    lines = ["" if line.startswith(("from ", "import ")) else line for line in text.split("\n")]
    names = dict(NAMES)
    exec("\n".join(lines), names)
    last = [line for line in lines if line.startswith("class ")][-1]
    return names[last[len("class ") :].split("(")[0].strip()]()


class Run:
    """A description's circuit in a state, under inputs."""

    def __init__(self, text):
        self.top = top_of(text)
        self.ios = getattr(self.top, "ios", [])
        self.statements = Module.crossings + self.top.statements()
        self.domains = Module.mentioned
        self.resets = [d for d in self.domains if Module.declared.get(d, True)]
        self.driver = {x: name for name, s in self.statements for x in s.driven()}
        self.ports = Port.all
        self.driver |= {p.dat_r: "(memory)" for p in self.ports}
        self.words = {p.memory: list(p.memory.first) for p in self.ports}
        self.kept = dict.fromkeys(self.ports, 0)
        self.inputs = {x: None for x in self.ios if x not in self.driver}
        self.values = {x: 0 if x in self.inputs else x.reset for x in Signal.all}
        self.settle()

    def laid(self, name, values):
        """The values after the taken assignments of one part, over `values`."""
        after = dict(values)
        for part, s in self.statements:
            if part == name:
                for x, low, bits, number in s.taken(self.values):
                    pattern = after[x] % (1 << x.bits) & ~((1 << bits) - 1 << low) | number << low
                    after[x] = wrapped(pattern, x.bits, x.signed)
        return after

    def settle(self):
        for _ in range(len(self.values) + 1):
            resets = {x: x.reset for x, name in self.driver.items() if name == "comb"}
            after = self.laid("comb", self.values | resets)
            after |= {p.dat_r: p.shown(self.values, self.words[p.memory], self.kept[p]) for p in self.ports}
            if after == self.values:
                return
            self.values = after
        raise ValueError("the circuit doesn't settle")

    def step(self, risen, reset):
        """All domains of `risen` act at once on the settled values; those of `reset` are reset."""
        after = dict(self.values)
        for name in risen:
            laid = self.laid(name, self.values)
            for x, driver in self.driver.items():
                if driver == name:
                    after[x] = x.reset if name in reset and not x.reset_less else laid[x]
        active = [p for p in self.ports if p.domain in risen]
        self.kept |= {p: p.keeps(self.values, self.words[p.memory], self.kept[p]) for p in active}
        for p in active:
            p.write(self.values, self.words[p.memory])
        self.values = after
        self.settle()
