"""The tests of deltagraph, which tests/run runs."""
