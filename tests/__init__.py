"""Unit tests of the tools' Python: `python3 -m unittest` at the top of the repository finds and runs them."""
