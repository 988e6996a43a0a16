"""The tests. This file lets `python3 -m unittest` find them at the top of the repository, and them find support/ and laws/."""

import os
import sys

sys.path.insert(0, os.path.dirname(os.path.abspath(__file__)))
