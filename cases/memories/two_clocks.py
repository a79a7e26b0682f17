# one clock domain writes, another reads
class Two(Module):
    def __init__(self):
        self.clock_domains.cd_out = ClockDomain(reset_less=True)
        store = Memory(3, 5)
        wr = store.get_port(write_capable=True, clock_domain="inside")
        rd = store.get_port(clock_domain="out")
        self.specials += store, wr, rd
        self.ios = [wr.adr, wr.dat_w, wr.we, rd.adr, rd.dat_r]
