from migen import *
from litex.soc.interconnect.csr import *
from litex.soc.integration.soc_core import *

class A(Module):
    def __init__(self):
        self.a = Signal()
        self.y = Signal()
        self.ios = [self.a, self.y]
        self.comb += self.y.eq(~self.a)
