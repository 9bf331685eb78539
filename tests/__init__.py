"""Tests of the built programs, in folders by what they test. tests/README.md says how one is run."""
