class A(Module):
    def __init__(self):
        [Signal() for i in range(65537)]
