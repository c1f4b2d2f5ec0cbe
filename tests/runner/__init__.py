"""What tries a built program: groups of cases, second implementations, makers of random inputs; the module `vechaqir` is found from here."""
import os
import sys

sys.path.insert(0, os.path.join(os.path.dirname(os.path.dirname(os.path.dirname(os.path.abspath(__file__)))), "tools"))
