"""Programs that use libharfbuzz, run as they are and shaped by Kuspveli."""
