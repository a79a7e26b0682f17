class A(Modul):
    def __init__(self): pass
