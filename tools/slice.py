#!/usr/bin/env python3
"""Cuts a slice of the published trace of 2011 and lays it down as tables for omega: omegatools/slicing.py."""
import sys

from omegatools.common import ends
from omegatools.slicing import main

if __name__ == '__main__':
    sys.exit(ends('slice.py', main))
