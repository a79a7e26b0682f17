class Worker(Module):
    def __init__(self, go):
        self.done = Signal()
        self.count = Signal(3)
        self.submodules.ctl = FSM(reset_state="IDLE")
        self.ctl.act("WORK",
            Case(self.count, {
                5: [self.done.eq(1), NextState("IDLE")],
                "default": NextValue(self.count, self.count + 1),
            })
        )
        self.ctl.act("IDLE",
            NextValue(self.count[1:], 0),
            If(go, NextState("WORK"))
        )
        self.ctl.act("WORK", If(~go, NextState("IDLE")))

class A(LiteXModule):
    def __init__(self):
        self.go = Signal()
        self.busy = Signal()
        self.worker = Worker(self.go)
        self.comb += self.busy.eq(self.worker.ctl.ongoing("WORK"))
        self.steps = Signal(2)
        self.fsm = FSM()
        for k in range(3):
            self.fsm.act(str(k),
                self.steps.eq(k),
                If(self.worker.done, NextState(str((k + 1) % 3)))
            )
        never = FSM()
        never.act("A", NextState("A"))
        self.ios = [self.go, self.busy, self.worker.done, self.worker.count, self.steps]
