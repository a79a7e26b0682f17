class B(Module):
    def __init__(self): pass
class A(Module):
    def __init__(self):
        self.submodules.b = B()
        self.submodules += self.b
