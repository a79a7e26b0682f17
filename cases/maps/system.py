from migen import *
from litex.soc.interconnect.csr import *
from litex.soc.integration.soc_core import *

class Dev(LiteXModule):
    def __init__(self):
        self._x = CSRStorage(8)

class Top(SoCCore):
    def __init__(self):
        super().__init__()
        self.add_ram("sram", None, 4096)
        self.dev = Dev()
