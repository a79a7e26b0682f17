# no class stands here
from migen import *
