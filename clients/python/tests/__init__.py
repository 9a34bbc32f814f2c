"""Tests of the package bpfhost. `clients/python/check` runs them."""
