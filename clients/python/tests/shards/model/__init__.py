"""A model of the protocol: small processes that call the scripts of shards as they are, in all of their interleavings."""
