"""What a configuration says of the network link: where each transmission group goes, and what of that a program beside the gateway can hear."""

from typing import NamedTuple

from .links import LOOPBACK, Endpoint, Links


class Target(NamedTuple):
    """Where datagrams go: the path of the key that says so, the groups that go there, and the address."""

    path: str
    groups: tuple
    end: Endpoint

    def __str__(self):
        return f"{self.path} leads {' and '.join(self.groups)} to {self.end}"


class Network:
    """The network link of an accepted configuration, for a program that takes plain sentences at an address of its own."""

    def __init__(self, accepted, plain_end):
        self.links, self.plain_end = Links(accepted), plain_end
        self.listen, self.plain = self.links.listens["net"], self.links.plain
        self.groups = sorted(accepted.groups()) + ([self.plain] if self.plain else [])
        self.has_sources = bool(accepted.root.get("net", {}).get("sources"))
        self.targets = self.all_targets()

    def all_targets(self):
        """Each address once, net.send first, to which all groups without a route go."""
        send, routes = self.links.sends["net"], self.links.routes
        paths, groups = {send: "net.send"}, {send: [group for group in self.groups if group not in routes]}
        for group, (number, end) in routes.items():
            paths.setdefault(end, f"route.{number}.address")
            groups.setdefault(end, []).append(group)
        return [Target(path, tuple(groups[end]), end) for end, path in paths.items()]

    def is_plain(self, target):
        """Whether plain sentences come there."""
        return self.plain in target.groups

    def is_port(self, target):
        """Whether an address is to be listened on, if it is one of this machine."""
        is_for_us = target.end == self.links.sends["net"] or self.is_plain(target) and target.end == self.plain_end
        return is_for_us and not target.end.is_multicast()

    def ports(self):
        return [target for target in self.targets if self.is_port(target)]

    def joined(self):
        """The multicast groups that something is sent to and that can be heard."""
        return [target for target in self.groups_of_network() if not self.is_heard_by_gateway(target)]

    def shared(self):
        """Those that only the gateway can hear, since it listens on their port."""
        return [target for target in self.groups_of_network() if self.is_heard_by_gateway(target)]

    def groups_of_network(self):
        return [target for target in self.targets if target.end.is_multicast() and target.groups]

    def is_heard_by_gateway(self, target):
        """Whether the gateway itself hears a group, once any program of this machine has joined it."""
        return self.listen.port == target.end.port and (self.listen.is_of_all() or self.listen.host == target.end.host)

    def unheard(self):
        """The addresses that something is sent to and that are neither groups nor ports."""
        return [
            target for target in self.targets
            if not target.end.is_multicast() and not self.is_port(target) and not set(self.groups).isdisjoint(target.groups)
        ]

    def cure(self):
        """The keys by which all sentences come to a port."""
        route = f'[[route]] with group = "{self.plain or "PLAN"}" and address = "{self.plain_end}"'
        return route if self.plain else f'[plain] with group = "PLAN", and {route}'

    def handed_to(self):
        """Where the gateway hears what others send to a group; nowhere if it hears nobody, or listens to a group itself."""
        if not self.has_sources or self.listen.is_multicast():
            return None
        return (LOOPBACK if self.listen.is_of_all() else self.listen.host, self.listen.port)

    def source(self):
        """The address from which datagrams leave; nothing if the system chooses it."""
        return None if self.listen.is_of_all() else self.listen.host
