"""The tests of the module `reamertan`, which `python/test` runs."""
