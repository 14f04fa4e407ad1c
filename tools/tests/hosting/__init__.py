"""Runs of a whole host, which `.ci/host.py` starts."""
