"""Random descriptions of lawful circuits, for checks/descriptions: expressions and statements of each form, over signals
of few and of many bits, in `comb` and in two clock domains, declared or not, with values that cross into them. All
signals are ports but for the registers of crossings and the numbers of states, so that all of these are compared. Some
have a state machine, others memories.
"""
import random

import fhdl

WIDTHS = [1, 1, 2, 2, 3, 3, 4, 4, 5, 7, 8, 12, 16, 31, 32, 33, 63, 64]
BINARY = ["+", "-", "*", "&", "|", "^", "==", "!=", "<", "<=", ">", ">="]
MOST = 127


class Sample:
    """One description: its signals, and texts of expressions that are known to have a lawful shape."""

    def __init__(self, seed, kind):
        self.chance, self.has_machine, self.has_memory = random.Random(seed), kind == "--machines", kind == "--memories"
        self.shapes = {}
        self.signals = {}

    def signal(self, name):
        bits, signed = self.chance.choice(WIDTHS), self.chance.random() < 0.4
        reset = self.chance.choice([0, 1, -1, self.chance.getrandbits(bits)])
        self.shapes[name] = f"({bits}, {signed})" if signed else str(bits)
        self.signals[name] = fhdl.Signal((bits, signed), reset=reset)
        less = ", reset_less=True" if self.chance.random() < 0.1 else ""
        return f"self.{name} = Signal({self.shapes[name]}, reset={reset}{less})"

    # ---- expressions, as texts

    def value(self, text):
        """The expression that a text is, or None where its shape has a fault."""
        try:
            e = fhdl.expr(eval(text, dict(fhdl.NAMES), {"self": self}))
        except (IndexError, TypeError, ZeroDivisionError):
            return None
        return e if 1 <= e.bits <= MOST else None

    def __getattr__(self, name):
        return self.__dict__["signals"][name]

    def integer(self):
        return str(self.chance.choice([0, 1, 2, 3, 5, 7, 8, 15, 255, -1, -2, -8, self.chance.getrandbits(20)]))

    def leaf(self, names):
        chance = self.chance.random()
        if chance < 0.75:
            return f"self.{self.chance.choice(names)}"
        if chance < 0.9:
            return f"C({self.integer()}, ({self.chance.randint(1, 9)}, {self.chance.random() < 0.5}))"
        return f"C({self.integer()})"

    def expr(self, names, depth):
        for _ in range(20):
            text = self.form(names, depth)
            e = self.value(text)
            if e is not None and all(p.bits + 1 <= MOST for p in vars(e).values() if isinstance(p, fhdl.Expr)):
                return text
        return f"self.{names[0]}"

    def unsigned(self, names, most):
        """An unsigned expression of few bits."""
        e = self.expr(names, 1)
        bits = self.value(e).bits
        return f"({e})[:{min(bits, self.chance.randint(1, most))}]"

    def form(self, names, depth):
        if depth == 0:
            return self.leaf(names)
        a, b = self.expr(names, depth - 1), self.expr(names, depth - 1)
        kind = self.chance.randrange(14)
        if kind < 6:
            other = self.integer() if self.chance.random() < 0.2 else b
            left, right = self.chance.choice([(a, other), (other, a)])
            return f"(({left}) {self.chance.choice(BINARY)} ({right}))"
        if kind == 6:
            return f"({self.chance.choice('~-')}({a}))"
        if kind == 7:
            return f"(({a}) {self.chance.choice(['<<', '>>'])} {self.unsigned(names, 3)})"
        if kind == 8:
            return f"(({a}) >> {self.chance.choice([0, 1, 3, 64, 200])})"
        if kind == 9:
            return f"Mux({self.expr(names, depth - 1)}, {a}, {b})"
        if kind == 10:
            return f"Cat({', '.join(self.expr(names, depth - 1) for _ in range(self.chance.randint(1, 3)))})"
        if kind == 11:
            return f"Replicate({a}, {self.chance.randint(1, 4)})"
        if kind == 12:
            items = ", ".join([a, b, self.integer()][: self.chance.randint(1, 3)])
            return f"Array([{items}])[{self.unsigned(names, 3)}]"
        bits = self.value(a).bits
        low = self.chance.randrange(bits)
        return f"({a})" + self.chance.choice([f"[{low}]", f"[{low - bits}]", f"[{low}:]", f"[:{low + 1}]", f"[{low}:{bits + 2}]"])

    # ---- statements, as texts

    def target(self, own, names, depth=2):
        chance = self.chance.random()
        name = self.chance.choice(own)
        if depth == 0 or chance < 0.5:
            return f"self.{name}"
        if chance < 0.75:
            bits = self.signals[name].bits
            low = self.chance.randrange(bits)
            return f"self.{name}[{low}:{self.chance.randint(low + 1, bits)}]"
        parts = [self.target(own, names, depth - 1) for _ in range(self.chance.randint(1, 3))]
        text = f"Cat({', '.join(parts)})" if chance < 0.87 else f"Array([{', '.join(parts)}])[{self.unsigned(names, 2)}]"
        e = self.value(text)
        return text if e is not None and fhdl.target_bits(e) <= MOST else f"self.{name}"

    def body(self, leaf, names, depth):
        return ", ".join(self.statement(leaf, names, depth) for _ in range(self.chance.randint(1, 2)))

    def assignment(self, own, names):
        return f"{self.target(own, names)}.eq({self.expr(names, 2)})"

    def block(self, own, names):
        return self.statement(lambda: self.assignment(own, names), names, 3)

    def statement(self, leaf, names, depth):
        """A statement whose innermost ones are leaves."""
        kind = self.chance.randrange(6) if depth else 5
        if kind < 2:
            text = f"If({self.expr(names, 1)}, {self.body(leaf, names, depth - 1)})"
            for _ in range(self.chance.randrange(3)):
                text += f".Elif({self.expr(names, 1)}, {self.body(leaf, names, depth - 1)})"
            if self.chance.random() < 0.6:
                text += f".Else({self.body(leaf, names, depth - 1)})"
            return text
        if kind == 2:
            keys = self.chance.sample(range(-3, 9), self.chance.randint(0, 4))
            arms = [f"{key}: [{self.body(leaf, names, depth - 1)}]" for key in keys]
            if self.chance.random() < 0.6:
                arms.insert(self.chance.randint(0, len(arms)), f'"default": {self.statement(leaf, names, depth - 1)}')
            return f"Case({self.expr(names, 1)}, {{{', '.join(arms)}}})"
        return leaf()

    # ---- domains

    def declaration(self, domain):
        """A declaration of a domain, which may have no reset, by one of the ways to bind it."""
        left = self.chance.choice([f"self.cd_{domain}", f"self.{domain}", f"self.clock_domains.{domain}", f"self.clock_domains.cd_{domain}"])
        return f"{left} = ClockDomain({self.chance.choice(['', 'reset_less=True', '0', '1'])})"

    def crossing(self, name, names):
        """A value that goes into a domain, and then to the signal of this name."""
        source = self.expr(names, 2) if self.chance.random() < 0.9 else self.integer()
        e = self.value(source)
        if e.bits > 64:
            source = f"({source})[:{self.chance.randint(1, 64)}]"
        rest = self.chance.choice(["", ', "fast"', ', n=1, odomain="fast"', ', "sys", 3', ", n=1"])
        add = self.chance.choice(["", "self.specials += ", f"self.specials.{name}_crossing = ", f"self.{name}_crossing = "])
        return f"{add}MultiReg({source}, self.{name}{rest})"

    # ---- memories

    def memory(self, name):
        """A memory of few words, with contents of any size for some of them."""
        bits, depth = self.chance.choice(WIDTHS), self.chance.choice([1, 2, 3, 4, 5, 8, 11, 16])
        contents = [self.chance.choice([self.chance.getrandbits(bits), -1, 300]) for _ in range(self.chance.randint(0, depth))]
        given = self.chance.choice([f", {contents}", f", init={contents}"]) if contents or self.chance.random() < 0.5 else ""
        return bits, depth, f"self.{name} = Memory({bits}, {depth}{given})"

    def port(self, name, memory, bits, depth, domain):
        """A port that reads in any domain and may write in this one, and the names and widths of its signals."""
        part = self.chance.choice([0] + [n for n in range(1, bits + 1) if bits % n == 0])
        writes, now = self.chance.random() < 0.6, self.chance.random() < 0.3
        words = ["write_capable=True"] * writes + ["async_read=True"] * now
        words += [f"we_granularity={part}"] * (self.chance.random() < 0.7 and writes)
        words += [f"mode={self.chance.choice(['WRITE_FIRST', 'READ_FIRST', 'NO_CHANGE'])}"] * (self.chance.random() < 0.8)
        domain = domain if writes else self.chance.choice(["sys", "fast"])
        words += [f'clock_domain="{domain}"'] * (domain != "sys" or self.chance.random() < 0.3)
        count = bits // part if part and any("we_gran" in word for word in words) else 1
        parts = [("adr", fhdl.bits_for(depth - 1)), ("dat_r", bits)] + [("dat_w", bits), ("we", count)] * writes
        return f"self.{name} = self.{memory}.get_port({', '.join(words)})", {f"{name}.{part}": width for part, width in parts}

    def memories(self, known):
        """The lines of some memories and their ports, which values drive or nothing does; and the names of the signals."""
        names = []
        for m in range(self.chance.randint(1, 2)):
            bits, depth, line = self.memory(f"mem{m}")
            yield line
            domain = self.chance.choice(["sys", "fast"])
            for k in range(self.chance.randint(1, 3)):
                line, parts = self.port(f"p{m}{k}", f"mem{m}", bits, depth, domain)
                yield line
                yield from self.chance.choice([[], [f"self.specials += self.p{m}{k}"], [f"self.specials.q{m}{k} = self.p{m}{k}"]])
                inner = names + list(known)
                for part, width in parts.items():
                    own = part.replace(".", "_")
                    self.signals[own] = fhdl.Signal(width)
                    yield f"self.{own} = self.{part}"
                    names.append(own)
                    if not own.endswith("dat_r") and self.chance.random() < 0.4:
                        where = "sync" if domain == "sys" else f"sync.{domain}"
                        yield f"self.{self.chance.choice(['comb', where])} += self.{own}.eq({self.expr(inner, 2)})"
        self.stored = names

    # ---- state machines

    def machine(self, own, held, names):
        """A machine whose states assign `own` at every moment and `held` at clock edges."""
        states = [f"S{k}" for k in range(self.chance.randint(1, 5))]
        start = self.chance.choice(["", f'"{self.chance.choice(states)}"'])

        def leaf():
            kind = self.chance.randrange(3)
            if kind == 0:
                return self.assignment(own, names)
            if kind == 1:
                return f"NextValue({self.target(held, names)}, {self.expr(names, 2)})"
            return f'NextState("{self.chance.choice(states)}")'

        yield f"self.submodules.fsm = FSM({start})"
        for state in states + self.chance.sample(states, self.chance.randrange(2)):
            yield f'self.fsm.act("{state}", {self.body(leaf, names, 3)})'

    def asking(self, asked):
        """Signals that tell of some states whether they are ongoing."""
        for k, name in enumerate(asked):
            self.signals[name] = fhdl.Signal()
            yield f'self.{name} = self.fsm.ongoing("S{k}")'

    def text(self):
        lines = []
        inputs = [f"i{k}" for k in range(self.chance.randint(2, 4))]
        held = {"sys": [f"r{k}" for k in range(self.chance.randint(0, 3))], "fast": [f"f{k}" for k in range(self.chance.randint(0, 2))]}
        groups = [[f"c{k}_{j}" for j in range(self.chance.randint(1, 2))] for k in range(self.chance.randint(1, 3))]
        crossed = [f"x{k}" for k in range(self.chance.randint(0, 2))]
        own, kept = (["m0", "m1"], ["v0", "v1"]) if self.has_machine else ([], [])
        everything = inputs + held["sys"] + held["fast"] + crossed + own + kept + [name for group in groups for name in group]
        lines += [self.signal(name) for name in everything]
        known = inputs + held["sys"] + held["fast"] + crossed + kept
        if self.has_machine:
            machine = list(self.asking(["a0"]))
            machine = list(self.machine(own, kept, known + ["a0"])) + machine
            lines, everything, known = lines + machine[:1] + machine[-1:] + machine[1:-1], everything + ["a0"], known + own + ["a0"]
        if self.has_memory:
            lines += self.memories(known)
            known, everything = known + self.stored, everything + self.stored
        lines.append(f"self.ios = [{', '.join(f'self.{name}' for name in everything)}]")
        first = len(lines)
        for group in groups:
            lines += [f"self.comb += {self.block(group, known)}" for _ in range(self.chance.randint(1, 3))]
            known = known + group
        for domain, own in held.items():
            part = "sync" if domain == "sys" else f"sync.{domain}"
            lines += [f"self.{part} += {self.block(own, everything)}" for _ in range(self.chance.randint(1, 3)) if own]
        for line in [self.crossing(name, everything) for name in crossed] + [self.declaration(d) for d in held if self.chance.random() < 0.4]:
            lines.insert(self.chance.randint(first, len(lines)), line)
        return "class R(Module):\n    def __init__(self):\n" + "".join(f"        {line}\n" for line in lines)


def sample(seed, kind):
    return Sample(seed, kind).text()
