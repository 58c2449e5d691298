"""Proving and building the program: one run of rt's gate over the crates that it is built on."""
