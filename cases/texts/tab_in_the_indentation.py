class A(Module):
	pass
