class A(Module):
    def __init__(self):
        first = Signal()
        second = first
        self.third = first
        self.fourth = second
        self.ios = [first]
        Signal(2)
