class A(SoCCore):
    def __init__(self): pass
class B(Module):
    def __init__(self): pass
