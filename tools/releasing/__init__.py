"""Making what is published, of what is built, and trying it in fresh roots."""
