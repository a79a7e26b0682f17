class A(Module):
    def __init__(self):
        self.control = CSRStorage(8, reset=5)
        self.state = CSRStatus(4)
        self.submodules.ev = EventManager()
        self.ev.done = EventSourcePulse()
        self.go = Signal()
        self.ios = [self.control.storage, self.state.status, self.ev.irq, self.go]
        self.comb += [self.go.eq(self.control.re), self.ev.done.trigger.eq(self.state.status[0])]
