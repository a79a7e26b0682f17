# A pulse that passes from the clock domain `fast` to the domain `slow`: it turns a bit over, the bit goes through two
# registers, and each of its changes is a pulse again.
from migen import *


class Crossing(Module):
    def __init__(self):
        self.clock_domains.cd_fast = ClockDomain()
        self.clock_domains.cd_slow = ClockDomain(reset_less=True)
        self.pulse = Signal()
        self.seen = Signal()
        self.ios = [self.pulse, self.seen]

        turned = Signal()
        arrived = Signal()
        before = Signal()
        self.sync.fast += turned.eq(turned ^ self.pulse)
        self.specials += MultiReg(turned, arrived, "slow")
        self.sync.slow += before.eq(arrived)
        self.comb += self.seen.eq(arrived ^ before)
