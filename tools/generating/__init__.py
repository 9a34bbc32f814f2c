"""The texts and numbers that pages and clients share: read from the crates and texts.toml, and written between marks."""
