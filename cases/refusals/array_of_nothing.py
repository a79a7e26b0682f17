class A(Module):
    def __init__(self):
        Array([])
