"""Programs that use libharfbuzz, with Kuspveli in front of it: the shared object, running, and what it reports."""
