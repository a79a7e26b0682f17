class A(Module:
