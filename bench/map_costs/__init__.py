"""Costs of commands and helper calls on hash maps, with random keys and with colliding keys. bench/README.md has more."""
