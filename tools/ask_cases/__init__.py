"""The tests of tools/ask, which tools/ask_test.py runs."""
