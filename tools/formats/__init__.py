"""The rules of the two JSON formats, and where a value breaks one."""
