"""The tests of the companion, over the built program: tests/test-companion runs them."""
