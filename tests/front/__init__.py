"""The tests of tools/tower, a module for each part of it. tests/tools.py runs them."""
