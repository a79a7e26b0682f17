# The lights of a crossing: the main road has green until somebody waits at the side road, which then has green for a
# number of clocks.
from migen import *


class TrafficLight(Module):
    def __init__(self, patience=3):
        self.waiting = Signal()
        self.main = Signal(2)
        self.side = Signal(2)
        self.ios = [self.waiting, self.main, self.side]

        YELLOW = 1
        GREEN = 2
        left = Signal(max=patience + 1)
        self.submodules.fsm = FSM(reset_state="MAIN")
        self.fsm.act("MAIN",
            self.main.eq(GREEN),
            If(self.waiting, NextState("MAIN_ENDS"))
        )
        self.fsm.act("MAIN_ENDS",
            self.main.eq(YELLOW),
            NextValue(left, patience),
            NextState("SIDE")
        )
        self.fsm.act("SIDE",
            self.side.eq(GREEN),
            If(left == 0,
                NextState("SIDE_ENDS")
            ).Else(
                NextValue(left, left - 1)
            )
        )
        self.fsm.act("SIDE_ENDS",
            self.side.eq(YELLOW),
            NextState("MAIN")
        )
