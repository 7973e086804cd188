#!/usr/bin/env python3
"""Reads reports of omega, as text or as JSON, and shows what they come to: omegatools/reporting.py."""
import sys

from omegatools.common import ends
from omegatools.reporting import main

if __name__ == '__main__':
    sys.exit(ends('report.py', main))
