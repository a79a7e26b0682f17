class A(Module):
    def __init__(self):
        f = FSM()
        for i in range(256):
            f.act(str(i))
        f.act("0")
        f.act(
            "256")
