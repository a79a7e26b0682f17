class A(Module):
    def __init__(self):
        Array([1, 2])[2]
