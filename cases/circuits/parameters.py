from migen import *

class Stage(LiteXModule):
    """Adds a constant; several of them stand in a chain."""
    def __init__(self, source, k=1, width=None):
        self.out = Signal(len(source) if width is None else width)
        self.sync += self.out.eq(source + k)


class Chain(LiteXModule):
    def __init__(self, steps=[(1, 4), (2, None), (3, 6)]):
        super().__init__()
        self.source = Signal(3)
        last = self.source
        for k, width in steps:
            setattr(self, "stage" + str(k), Stage(last, width=width, k=k))
            last = getattr(self, "stage" + str(k)).out
        self.total = Signal(max(*[len(s) for s in [self.source, last]], bits_for(9)))
        self.comb += self.total.eq(last)
        self.ios = [self.source, self.total] + ([] if len(steps) < 3 else [self.stage2.out])
