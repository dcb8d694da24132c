"""The groups of tests; tests/run lists them."""
