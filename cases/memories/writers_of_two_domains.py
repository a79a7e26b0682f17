class A(Module):
    def __init__(self):
        self.other = Memory(8, 4)
        q = self.other.get_port(True, clock_domain="pix")
        self.m = Memory(8,
            4)
        for d in ["sys", "pix"]:
            p = self.m.get_port(True, async_read=True, clock_domain=d)
