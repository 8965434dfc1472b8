"""Inputs for the comparison, from a source of randomness."""
