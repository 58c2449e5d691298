"""The test of the library: its header, and the same texts from C, Rust, Python and the program."""
