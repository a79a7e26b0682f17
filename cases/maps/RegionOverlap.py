from migen import *
from litex.soc.interconnect.csr import *
from litex.soc.integration.soc_core import *

class Top(SoCCore):
    def __init__(self):
        super().__init__()
        self.add_ram("a", 0, 4096)
        self.add_ram("b", 0, 4096)  # here
