#!/usr/bin/env python3
"""Runs omega with every combination of lists of values, and keeps each run: omegatools/sweeping.py."""
import sys

from omegatools.common import ends
from omegatools.sweeping import main

if __name__ == '__main__':
    sys.exit(ends('sweep.py', main))
