"""The calls that may ask for memory, and the tests that run them."""
