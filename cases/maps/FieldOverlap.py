from migen import *
from litex.soc.interconnect.csr import *
from litex.soc.integration.soc_core import *

class Dev(LiteXModule):
    def __init__(self):
        self._x = CSRStorage(fields=[
            CSRField("a", size=4),
            CSRField("b", size=2, offset=3)])  # here

class Top(SoCCore):
    def __init__(self):
        super().__init__()
        self.dev = Dev()
