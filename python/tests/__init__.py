"""Tests of the module, with the standard library alone: `python3 -m unittest discover -t . -s tests` in the folder python."""
