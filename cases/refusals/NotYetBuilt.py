class A(SoCCore):
    def __init__(self):
        super().__init__()
