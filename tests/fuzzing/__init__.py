"""Frames that are spoilt at random."""
