"""Clients that people have."""
