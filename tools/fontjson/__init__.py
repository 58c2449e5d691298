"""A font file as the JSON value that hb_shape reads."""
