class A(Module):
    def __init__(self):
        Array([0] * 1025)
