"""The independent model: what a channel, its callbacks and its turns do, by the rules alone."""
