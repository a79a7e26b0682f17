class A(Module):
    def __init__(self):
        self.specials += Signal()
