from migen import *
from litex.soc.interconnect.csr import *
from litex.soc.integration.soc_core import *

class Dev(LiteXModule):
    def __init__(self):
        self._x = CSRStorage(8)

class Top(SoCCore):
    def __init__(self):
        super().__init__()
        self.dev = Dev()
        self.csr.add("dev", 32)  # here
