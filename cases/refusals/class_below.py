class A(Module):
    def __init__(self):
        self.submodules += B()
class B(Module):
    def __init__(self, a=A()): pass
