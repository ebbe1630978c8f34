"""What tests, the tools that play and the benchmarks share: tournaments, servers, and
how a tool says what it found.

Nothing below arena_lab/ but its tests may name it.
"""
