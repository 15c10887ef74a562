"""Runs of the programs in which one allocation after the other is refused."""
