class A(Module):
    def __init__(self):
        for i in range(1000000): pass
