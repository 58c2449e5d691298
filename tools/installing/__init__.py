"""Program, tools and library, put below a folder such as /usr/local, and removed from there."""
