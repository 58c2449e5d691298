"""The Unicode Character Database as the JSON value that hb_shape reads as TABLES."""
