"""The program with files, pipes and calls of the system that fail or are short in each place in turn."""
