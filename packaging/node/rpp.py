"""The companion of rooplpp, for the package of node."""
import os
import sys

sys.path.insert(0, os.path.dirname(os.path.realpath(__file__)))
from rpp.__main__ import command  # noqa: E402

if __name__ == '__main__':
    sys.exit(command())
