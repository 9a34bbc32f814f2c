"""A simulator of shards: the real client, worker, moves and scripts, on machines, a network and servers of Redis that a seed decides."""
