"""Reads the sources and finds the calls in them, for `tools/path-of-a-packet`."""
