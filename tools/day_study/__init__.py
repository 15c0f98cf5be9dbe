"""Many days of one plan, each a little otherwise: what tools/many_days draws, routes, writes and sums."""
