"""The tests of python/veilbuzz.py and python/sweep.py; python/test runs them."""
