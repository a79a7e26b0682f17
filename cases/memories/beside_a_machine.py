# an FSM that fills a memory, and then reads it
class Fill(Module):
    def __init__(self, depth=4):
        self.go = Signal()
        self.out = Signal(3)
        self.ios = [self.go, self.out]
        store = Memory(3, depth)
        port = store.get_port(write_capable=True, mode=READ_FIRST)
        self.specials += store, port
        self.submodules.fsm = FSM(reset_state="FILL")
        self.fsm.act("FILL",
            port.we.eq(1),
            port.dat_w.eq(~port.adr),
            NextValue(port.adr, port.adr + 1),
            If(port.adr == depth - 1, NextState("READ")))
        self.fsm.act("READ", self.out.eq(port.dat_r), If(self.go, NextValue(port.adr, port.adr - 1)))
