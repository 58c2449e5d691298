"""Random fonts, tables, texts and words for the program, and what it makes of them under limits."""
