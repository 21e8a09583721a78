"""Compose files as cluster scripts; `tools/compose` is the program."""
