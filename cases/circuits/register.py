class A(Module):
    def __init__(self):
        self.control = CSRStorage(8)
