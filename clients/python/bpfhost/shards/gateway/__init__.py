"""A gateway: customers send frames over TCP or a Unix socket, and only the gateway decides which customer they are.

In the repository, clients/python/GATEWAYS.md says how to run it, and has its protocol. It needs redis.
"""
