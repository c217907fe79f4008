"""Tries ctrel with refused memory, damaged input, many workers, and sizes at their limits."""
