class A(Module):
    def __init__(self):
        x = [1, 2][2]
