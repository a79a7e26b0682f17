class A(Module):
    def __init__(self):
        x = 2**126 + 2**126
