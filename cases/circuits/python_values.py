from migen import *
import litex.soc

"""Signals whose widths and values are what Python's values are."""

class Values(Module):
    """Each port shows one of them."""
    def __init__(self, names=("a", "b", "c"), sizes=[3, 5, 7]):
        self.ios = []
        for name, size in zip(names, sizes + [9]):
            setattr(self, name, Signal(size))
            self.ios += [getattr(self, name)]
        for k, n in enumerate(reversed(list(names))):
            self.comb += getattr(self, n).eq(k * 2 + len(n))

        numbers = [7 // 2, -7 // 2, -7 % 3, 2**5 % 7, 1 << 4 >> 1, 6 & 3 | 8 ^ 1, ~5, +3 - -4, int(0x1f) - 0b1_0 + 0o17]
        truths = [1 if x in (2, 3) else 0 for x in range(5)] + [not [], "" or 4, None is None, "x" == "y", True and 2, 3 != None]
        texts = "abc" + 'd\n'
        lengths = [len(texts), len(numbers), len((1,)), len(texts[-1]), min(3, 1, 2), max(*[3, 8]), bits_for(8), log2_int(64)]
        for k, value in enumerate(numbers + truths + lengths):
            s = Signal((9, True), name="v" + str(k))
            self.comb += s.eq(value)
            self.ios += [s]

        grid = [[Signal(x + y + 1) for x in range(2)] for y in []] + [[Signal(4)], [Signal(5), [Signal(6)]]]
        self.grid = grid
        self.last = self.grid[1][1][0]
        if len(self.grid) > 2:
            pass
        elif numbers[0] == 3:
            self.comb += [row[0].eq(1) for row in self.grid if len(row)]
        else:
            self.comb += undefined
