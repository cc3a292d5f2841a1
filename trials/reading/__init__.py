"""The outside reading: the language read a second time, by its rules alone and never by looking at the product. Nothing here runs by itself."""

import sys

# The deepest texts and kinds take some thousand calls.
sys.setrecursionlimit(20000)
