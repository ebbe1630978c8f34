"""Experiments, each of one file, and the program that makes the tables of
docs/EXPERIMENTS.md from them."""
