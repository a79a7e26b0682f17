from migen import *
from litex.soc.interconnect.csr import *
from litex.soc.integration.soc_core import *

class Top(SoCCore):
    def __init__(self):
        super().__init__()
        self._x = CSRStorage(8)  # here
