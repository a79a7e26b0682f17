class A(Module):
    def __init__(self):
        self.a = 170141183460469231731687303715884105728
