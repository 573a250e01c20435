"""The tests of the package, the commands and the archive run: `python3 -m unittest discover -t python -s python/tests`."""
