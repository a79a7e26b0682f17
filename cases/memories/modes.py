# a memory for each mode, which one port reads and writes
class Modes(Module):
    def __init__(self):
        self.adr = Signal(1)
        self.data = Signal(4)
        self.we = Signal()
        self.ios = [self.adr, self.data, self.we]
        modes = [WRITE_FIRST, READ_FIRST, NO_CHANGE]
        for mode, name in zip(modes, ["fresh", "stale", "kept"]):
            setattr(self, name, Memory(4, 2))
            port = getattr(self, name).get_port(write_capable=True, mode=mode)
            out = Signal(4, name=name + "_out")
            self.comb += [port.adr.eq(self.adr), port.dat_w.eq(self.data), port.we.eq(self.we), out.eq(port.dat_r)]
            self.ios += [out]
