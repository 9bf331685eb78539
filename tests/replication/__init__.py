"""Nodes that follow one another."""
