"""Standings of teams."""
