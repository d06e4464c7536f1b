"""What the checks share; each script of the folder above holds only what it checks."""
import sys

# The folders stay as they are, but for what Python keeps of this file.
sys.dont_write_bytecode = True
