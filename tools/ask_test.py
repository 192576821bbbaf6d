#!/usr/bin/env python3
"""Tests of tools/ask.

Usage: tools/ask_test.py PROGRAM [TEST..]
PROGRAM is the path of audb. A TEST is a class, as Page, or one of its cases, as Page.test_no_row. The page is looked at in a
browser where Chromium is on the path, and else not. The last line is unittest's own.
"""
import os
import sys
import unittest

sys.dont_write_bytecode = True
sys.path.insert(0, os.path.dirname(os.path.abspath(__file__)))
from ask_cases import asking
from ask_cases.files import Files, Shares
from ask_cases.listing import Listing
from ask_cases.page import Browser, Charts, Page
from ask_cases.queries import Refused
from ask_cases.spoilt import Spoilt
from ask_cases.words import Program, Words

if __name__ == "__main__":
    if len(sys.argv) < 2 or not os.path.isfile(sys.argv[1]):
        sys.exit(__doc__)
    asking.PROGRAM = os.path.abspath(sys.argv.pop(1))
    unittest.main()
