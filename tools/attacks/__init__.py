"""Fonts, tables, texts and JSON that are made to cost much, each at three sizes."""
