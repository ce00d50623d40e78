"""Where the tables of the checks and their C code are."""
import os

TESTS = os.path.dirname(os.path.abspath(__file__))
TOP = os.path.dirname(TESTS)
CASES = os.path.join(TESTS, "cases")
INTERPOSE = os.path.join(TESTS, "interpose")
