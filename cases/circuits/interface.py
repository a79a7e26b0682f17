class A(Module):
    def __init__(self):
        self.bus = wishbone.Interface()
