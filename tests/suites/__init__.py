"""The suites, each run by its name as tests/run runs it: with a program, and a folder of its own."""
