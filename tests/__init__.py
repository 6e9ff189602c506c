"""The tests of the built programs. See tests/README.md."""
import sys

sys.dont_write_bytecode = sys.pycache_prefix is None  # kept only in a folder that is named for it
