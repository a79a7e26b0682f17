from migen import *
from litex.soc.interconnect.csr import *
from litex.soc.interconnect.csr_eventmanager import *
from litex.soc.integration.soc_core import *

# A timer that counts down and tells when it is at 0, lights, and a RAM, on one bus.

class Timer(LiteXModule):
    def __init__(self, width=32):
        self._load = CSRStorage(width)
        self._reload = CSRStorage(width)
        self._en = CSRStorage()
        self._update_value = CSRStorage()
        self._value = CSRStatus(width)
        self.ev = EventManager()
        self.ev.zero = EventSourceProcess()
        self.ev.finalize()
        value = Signal(width)
        self.sync += [
            If(self._en.storage,
                If(value == 0, value.eq(self._reload.storage)).Else(value.eq(value - 1))
            ).Else(value.eq(self._load.storage)),
            If(self._update_value.re, self._value.status.eq(value))
        ]
        self.comb += self.ev.zero.trigger.eq(value != 0)

class Leds(LiteXModule):
    def __init__(self, pads):
        self._out = CSRStorage(8)
        self.comb += pads.eq(self._out.storage)

class Top(SoCCore):
    def __init__(self):
        super().__init__()
        self.led = Signal(8)
        self.ios = [self.led]
        self.add_ram("sram", origin=0x10000000, size=8192)
        self.timer0 = Timer()
        self.leds = Leds(self.led)
        self.irq.add("timer0")
