"""Tries of real editors, for `try-editors`: each editor has a file here, and `shared.py` has what they share."""
