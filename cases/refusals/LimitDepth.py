class A(Module):
    def __init__(self):
        x = []
        for i in range(64): x = [x]
