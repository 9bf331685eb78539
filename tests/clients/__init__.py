"""Clients that others wrote."""
