"""Nodes that the leader deletes by itself, at once and not after a minute: TTL nodes, which are off by default, and
containers."""
import curator


class Bench(curator.Bench):
    """The ensemble, whose leader looks for such nodes each half second."""

    FLAGS = ("-Dzookeeper.extendedTypesEnabled=true", "-Dznode.container.checkIntervalMs=500")


CHECKS = curator.checks_of(["Extended"])
