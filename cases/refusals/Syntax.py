class A(Module):
    def __init__(self):
        while True: pass
