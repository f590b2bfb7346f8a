"""Gives all tests of the tree the options and fixtures of tools/byte_unit_dev/fixtures.py."""

pytest_plugins = ["byte_unit_dev.fixtures"]
