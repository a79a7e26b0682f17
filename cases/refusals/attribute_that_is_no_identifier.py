class A(Module):
    def __init__(self):
        setattr(self, "2nd", 1)
