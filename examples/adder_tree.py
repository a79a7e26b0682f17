# A tree of adders: the whole sum of any number of inputs, with registers behind each level, so that a sum comes as many
# clocks after its inputs as the tree has levels.
from migen import *


class Level(Module):
    """Adds each two neighbours of a list; a last one without a neighbour waits a clock."""

    def __init__(self, terms):
        self.sums = []
        for k in range(len(terms) // 2):
            left = terms[2 * k]
            right = terms[2 * k + 1]
            total = Signal(max(len(left), len(right)) + 1)
            self.sync += total.eq(left + right)
            self.sums += [total]
        if len(terms) % 2:
            waiting = Signal(len(terms[-1]))
            self.sync += waiting.eq(terms[-1])
            self.sums += [waiting]


class AdderTree(Module):
    def __init__(self, inputs=5, width=8):
        self.term = [Signal(width) for k in range(inputs)]

        terms = self.term
        for depth in range(bits_for(inputs - 1)):
            level = Level(terms)
            setattr(self.submodules, "level" + str(depth), level)
            terms = level.sums

        self.total = Signal(len(terms[0]))
        self.comb += self.total.eq(terms[0])
        self.ios = self.term + [self.total]
