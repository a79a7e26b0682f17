class A(Module):
    def __init__(self):
        for a, b in [(1, 2),
                     (3,)]:
            pass
