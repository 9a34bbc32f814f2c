"""Tests of shards, with a Redis of their own."""
