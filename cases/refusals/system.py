class A(SoCCore):
    def __init__(self): pass
