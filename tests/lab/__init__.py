"""Tests of the lab that need nothing but Python."""
