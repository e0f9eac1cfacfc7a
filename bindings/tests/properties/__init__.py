"""Properties of the Python package, which Hypothesis tries to break. A model of a Redis server in memory stands in for
one at the socket: it may be interrupted at each command, and what it holds can be looked at."""
