"""Grammars of syllables, compiled to the machines of the format."""
