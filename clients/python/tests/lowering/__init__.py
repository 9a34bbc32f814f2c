"""Tests of lowering: the steps, the independent checker, and forms compared with their programs."""
