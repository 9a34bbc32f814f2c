"""The definitions that the theorems rest on: read from the sources, divided into tiers, and shown on pages."""
