"""The crates of the library for Rattle, copied into another repository."""
