"""The repository's own sources: its crates, the definitions of its specs, and its words."""
