"""Companions of `rcp` for who designs a vote pattern. Each asks `rcp` for its facts; none of them is in the proved program."""
