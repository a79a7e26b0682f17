"""Modules of the Verilog profile, read from their text and run by the definition (IEEE 1364-2005, in two states).

A plain program that stands apart from the proofs: it reads the forms that crates/lx_vtext prints, and computes what
crates/lx_vmeaning defines. A word past the end of a memory reads 0; tools differ there, so what reads one is marked.
"""
import re

NAME = re.compile(r"[A-Za-z_][A-Za-z0-9_$]*")
NUMBER = re.compile(r"0|[1-9][0-9]*")
END = re.compile(r"end(?![A-Za-z0-9_$])")
LITERAL = re.compile(r"([0-9]+)'(s?)d([0-9]+)")
OPERATORS = ["<<<", ">>>", "<<", ">>", "<=", "==", "!=", ">=", "<", ">", "+", "-", "*", "&", "|", "^"]
COMPARISONS = {"<", "<=", "==", "!=", ">", ">="}
SHIFTS = {"<<", "<<<", ">>", ">>>"}


class Reader:
    """A text and a place in it."""

    def __init__(self, text):
        self.text = text
        self.at = 0

    def has(self, word):
        if self.text.startswith(word, self.at):
            self.at += len(word)
            return True
        return False

    def need(self, word):
        if not self.has(word):
            raise ValueError(f"{word!r} is missing before {self.text[self.at:self.at + 40]!r}")

    def match(self, pattern):
        found = pattern.match(self.text, self.at)
        if not found:
            raise ValueError(f"{self.text[self.at:self.at + 40]!r}")
        self.at = found.end()
        return found

    def name(self):
        return self.match(NAME).group()

    def number(self):
        return int(self.match(NUMBER).group())

    def literal(self):
        found = self.match(LITERAL)
        return ("literal", int(found.group(1)), found.group(2) == "s", int(found.group(3)))

    def range(self):
        hi = self.number()
        self.need(":")
        lo = self.number()
        self.need("]")
        return hi, lo

    def is_range(self):
        return re.compile(r"[0-9]+:").match(self.text, self.at) is not None

    def expr(self):
        if self.has("$signed("):
            return self.closed("signed")
        if self.has("$unsigned("):
            return self.closed("unsigned")
        if self.has("{"):
            return self.braces()
        if self.has("("):
            return self.round()
        if self.text[self.at].isdigit():
            return self.literal()
        name = self.name()
        if not self.has("["):
            return ("net", name)
        if self.is_range():
            return ("select", name, *self.range())
        index = self.expr()
        self.need("]")
        return ("word", name, index)

    def closed(self, kind):
        of = self.expr()
        self.need(")")
        return (kind, of)

    def braces(self):
        count = re.compile(r"([0-9]+)\{").match(self.text, self.at)
        if count:
            self.at = count.end()
            of = self.expr()
            self.need("}}")
            return ("replicate", int(count.group(1)), of)
        parts = [self.expr()]
        while self.has(", "):
            parts.append(self.expr())
        self.need("}")
        return ("concat", parts)

    def round(self):
        for sign in "-~":
            if self.has(sign):
                of = self.expr()
                self.need(")")
                return ("unary", sign, of)
        left = self.expr()
        self.need(" ")
        if self.has("? "):
            yes = self.expr()
            self.need(" : ")
            no = self.expr()
            self.need(")")
            return ("conditional", left, yes, no)
        for sign in OPERATORS:
            if self.has(sign + " "):
                right = self.expr()
                self.need(")")
                return ("binary", left, sign, right)
        raise ValueError(f"no operator at {self.text[self.at:self.at + 20]!r}")

    def statements(self, levels):
        margin = "    " * levels
        body = []
        while True:
            if self.has(margin + "if ("):
                body.append(self.branch(levels))
            elif self.text.startswith(margin, self.at) and NAME.match(self.text, self.at + len(margin)) and not END.match(self.text, self.at + len(margin)):
                self.at += len(margin)
                body.append(self.assignment())
            else:
                return body

    def branch(self, levels):
        cond = self.expr()
        self.need(") begin\n")
        yes = self.statements(levels + 1)
        self.need("    " * levels + "end")
        no = []
        if self.has(" else begin\n"):
            no = self.statements(levels + 1)
            self.need("    " * levels + "end")
        self.need("\n")
        return ("if", cond, yes, no)

    def assignment(self):
        name = self.name()
        index = part = None
        if self.has("["):
            if self.is_range():
                part = self.range()
            else:
                index = self.expr()
                self.need("]")
                if self.has("["):
                    part = self.range()
        blocking = self.has(" = ")
        if not blocking:
            self.need(" <= ")
        value = self.expr()
        self.need(";\n")
        return ("assign", name, index, part, blocking, value)


class Module:
    """The parts of a module: nets (bits, sign, first value), inputs, memories (bits, depth, first words), drivers."""

    def __init__(self, text):
        self.text = text
        self.nets, self.inputs, self.outputs, self.memories, self.first = {}, [], [], {}, {}
        self.assigns, self.combs, self.clocked = {}, {}, []
        r = Reader(text)
        r.need("module top (\n")
        while not r.has(");\n"):
            self.port(r)
        while self.declaration(r) or self.initial(r) or self.assign(r) or self.always(r):
            pass
        r.need("endmodule\n")
        self.clocks = [n for n in self.inputs if any(c == n for c, _, _ in self.clocked)]

    def port(self, r):
        is_input = r.has("    input ")
        if not is_input:
            r.need("    output ")
        name = self.net(r, "wire" if r.has("wire ") else ("reg" if r.has("reg ") else None))
        (self.inputs if is_input else self.outputs).append(name)
        r.has(",")
        r.need("\n")

    def net(self, r, kind):
        signed = r.has("signed ")
        bits = 1
        if r.has("["):
            bits = r.range()[0] + 1
            r.need(" ")
        name = r.name()
        if kind == "reg" and r.has(" [0:"):
            self.memories[name] = (bits, r.number() + 1)
            r.need("]")
            self.first[name] = [0] * self.memories[name][1]
            return name
        self.nets[name] = (bits, signed)
        if kind == "reg":
            r.need(" = ")
            self.first[name] = r.literal()
        return name

    def declaration(self, r):
        kind = "wire" if r.has("wire ") else ("reg" if r.has("reg ") else None)
        if kind is None:
            return False
        self.net(r, kind)
        r.need(";\n")
        return True

    def initial(self, r):
        if not r.has("initial begin\n"):
            return False
        while r.has("    "):
            name = r.name()
            r.need("[")
            index = r.number()
            r.need("] = ")
            self.first[name][index] = r.literal()
            r.need(";\n")
        r.need("end\n")
        return True

    def assign(self, r):
        if not r.has("assign "):
            return False
        name = r.name()
        r.need(" = ")
        self.assigns[name] = r.expr()
        r.need(";\n")
        return True

    def always(self, r):
        if not r.has("always @("):
            return False
        clock = None
        if not r.has("*"):
            r.need("posedge ")
            clock = r.name()
        r.need(") begin\n")
        body = r.statements(1)
        r.need("end\n")
        target = target_of(body)
        if clock is None:
            self.combs[target] = body
        else:
            self.clocked.append((clock, target, body))
        return True


def target_of(body):
    for s in body:
        name = s[1] if s[0] == "assign" else target_of(s[2]) or target_of(s[3])
        if name:
            return name
    return None


class Run:
    """A module in a state, under inputs. `past` is whether a word past the end was read on the way."""

    def __init__(self, module):
        self.module = module
        self.past = False
        self.inputs = {n: 0 for n in module.inputs}
        self.state = {}
        for name, first in module.first.items():
            if name in module.memories:
                bits = module.memories[name][0]
                self.state[name] = [self.assigned(bits, v) if v else 0 for v in first]
            else:
                self.state[name] = self.assigned(module.nets[name][0], first)
        self.settle()

    def settle(self):
        self.values = {}

    def width(self, e):
        kind = e[0]
        if kind == "net":
            return self.module.nets[e[1]][0]
        if kind == "literal":
            return e[1]
        if kind == "select":
            return e[2] - e[3] + 1
        if kind == "word":
            return self.module.memories[e[1]][0]
        if kind == "unary":
            return self.width(e[2])
        if kind == "binary":
            if e[2] in COMPARISONS:
                return 1
            return self.width(e[1]) if e[2] in SHIFTS else max(self.width(e[1]), self.width(e[3]))
        if kind == "conditional":
            return max(self.width(e[2]), self.width(e[3]))
        if kind == "concat":
            return sum(self.width(p) for p in e[1])
        if kind == "replicate":
            return e[1] * self.width(e[2])
        return self.width(e[1])

    def signed(self, e):
        kind = e[0]
        if kind == "net":
            return self.module.nets[e[1]][1]
        if kind == "literal":
            return e[2]
        if kind == "unary":
            return self.signed(e[2])
        if kind == "binary":
            if e[2] in COMPARISONS:
                return False
            return self.signed(e[1]) if e[2] in SHIFTS else self.signed(e[1]) and self.signed(e[3])
        if kind == "conditional":
            return self.signed(e[2]) and self.signed(e[3])
        return kind == "signed"

    def own(self, e):
        return self.bits(e, self.width(e), self.signed(e))

    def pattern(self, e):
        """The pattern of a form that a context extends."""
        kind = e[0]
        if kind == "net":
            return self.value(e[1])
        if kind == "literal":
            return e[3]
        if kind == "select":
            return self.value(e[1]) >> e[3] & (1 << e[2] - e[3] + 1) - 1
        if kind == "word":
            index = self.own(e[2])
            if index >= self.module.memories[e[1]][1]:
                self.past = True
                return 0
            return self.state[e[1]][index]
        if kind == "binary":
            return self.compared(e)
        if kind == "concat":
            all_bits = 0
            for part in e[1]:
                all_bits = all_bits << self.width(part) | self.own(part)
            return all_bits
        if kind == "replicate":
            all_bits = 0
            for _ in range(e[1]):
                all_bits = all_bits << self.width(e[2]) | self.own(e[2])
            return all_bits
        return self.own(e[1])

    def compared(self, e):
        w = max(self.width(e[1]), self.width(e[3]))
        s = self.signed(e[1]) and self.signed(e[3])
        left, right = (number(self.bits(o, w, s), w, s) for o in (e[1], e[3]))
        holds = {"<": left < right, "<=": left <= right, "==": left == right, "!=": left != right, ">": left > right, ">=": left >= right}
        return int(holds[e[2]])

    def bits(self, e, w, s):
        """The bits of an expression in a context of w bits that is signed or not."""
        kind = e[0]
        if kind == "unary":
            of = self.bits(e[2], w, s)
            return (-of if e[1] == "-" else ~of) % (1 << w)
        if kind == "conditional":
            return self.bits(e[2] if self.own(e[1]) else e[3], w, s)
        if kind == "binary" and e[2] in SHIFTS:
            return self.shifted(e, w, s)
        if kind == "binary" and e[2] not in COMPARISONS:
            left, right = self.bits(e[1], w, s), self.bits(e[3], w, s)
            sums = {"+": left + right, "-": left - right, "*": left * right, "&": left & right, "|": left | right, "^": left ^ right}
            return sums[e[2]] % (1 << w)
        n = self.width(e)
        return number(self.pattern(e), n, s) % (1 << w)

    def shifted(self, e, w, s):
        left, amount = self.bits(e[1], w, s), self.own(e[3])
        if e[2] in ("<<", "<<<"):
            return 0 if amount >= w else (left << amount) % (1 << w)
        if e[2] == ">>>" and s:
            return (number(left, w, True) >> min(amount, w)) % (1 << w)
        return left >> min(amount, w)

    def assigned(self, bits, e):
        return self.bits(e, max(bits, self.width(e)), self.signed(e)) % (1 << bits)

    def value(self, name):
        """A net's settled pattern."""
        if name not in self.values:
            before, self.past = self.past, False
            self.values[name] = (self.driven(name), self.past)
            self.past = before
        value, past = self.values[name]
        self.past = self.past or past
        return value

    def driven(self, name):
        m = self.module
        if name in m.inputs:
            return self.inputs[name]
        if name in m.assigns:
            return self.assigned(m.nets[name][0], m.assigns[name])
        if name in m.combs:
            return self.ran(m.combs[name], 0)
        return self.state.get(name, 0)

    def ran(self, body, old):
        """A net, or a list of words, after the statements of its block."""
        for s in body:
            if s[0] == "if":
                old = self.ran(s[2] if self.own(s[1]) else s[3], old)
            else:
                old = self.laid(s, old)
        return old

    def laid(self, s, old):
        _, name, index, part, _, value = s
        if index is None:
            bits = self.module.nets[name][0]
            return self.assigned(bits, value) if part is None else self.over(old, part, value)
        bits, depth = self.module.memories[name]
        k = self.own(index)
        if k >= depth:
            return old
        word = self.assigned(bits, value) if part is None else self.over(old[k], part, value)
        return old[:k] + [word] + old[k + 1:]

    def over(self, old, part, value):
        hi, lo = part
        mask = (1 << hi - lo + 1) - 1
        return old & ~(mask << lo) | self.assigned(hi - lo + 1, value) << lo

    def next_state(self, rises):
        """The state after these clocks rise together."""
        after = dict(self.state)
        for clock, target, body in self.module.clocked:
            if clock in rises:
                after[target] = self.ran(body, self.state[target])
        return after


def number(pattern, bits, signed):
    return pattern - (1 << bits) if signed and bits and pattern >> bits - 1 & 1 else pattern
