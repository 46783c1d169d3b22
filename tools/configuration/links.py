"""What the addresses and groups of an accepted configuration do that nobody would want, and that no report tells."""

from typing import NamedTuple

from .accepted import Warned
from .keys import pattern_of

LOOPBACK = "127.0.0.1"
# a port below this is for who has a privilege to it, and the service has none
FIRST_FREE_PORT = 1024
# what IEC 61162-450 gives to the datagrams of its eight groups
OF_DATAGRAMS = frozenset((f"239.192.0.{number}", 60000 + number) for number in range(1, 9))


class Endpoint(NamedTuple):
    """An address and a port."""

    host: str
    port: int

    def __str__(self):
        return f"{self.host}:{self.port}"

    def is_loopback(self):
        return self.host.startswith("127.")

    def is_multicast(self):
        return 224 <= int(self.host.split(".")[0]) < 240

    def is_of_all(self):
        return self.host == "0.0.0.0"

    def meets(self, other):
        """Whether the two can't be listened on at a time."""
        return self.port == other.port and (self.host == other.host or self.is_of_all() or other.is_of_all())

    def hears(self, target):
        """Whether what the same machine sends there comes here."""
        host = LOOPBACK if target.is_of_all() else target.host
        return self.port == target.port and (self.host == host or self.is_of_all() and (target.is_loopback() or target.is_of_all()))


class Sent(NamedTuple):
    """What is sent over a link: the path of the key that says where to, that key, and where to."""

    link: str
    path: str
    keys: tuple
    target: Endpoint


def endpoint_of(text):
    host, port = text.rsplit(":", 1)
    return Endpoint(host, int(port))


def choice_of(table):
    """Which devices are taken, in which order."""
    return [pattern_of(pattern) for pattern in table.get("sources", [])], table.get("others", True)


class Links:
    """The two links, and where each group goes."""

    def __init__(self, accepted):
        self.accepted, self.place = accepted, accepted.place
        self.listens = {link: endpoint_of(accepted.value(link, "listen")) for link in ("bus", "net")}
        self.sends = {link: endpoint_of(accepted.value(link, "send")) for link in ("bus", "net")}
        self.routes = {route["group"]: (number, endpoint_of(route["address"])) for number, route in accepted.routes()}
        self.plain = accepted.root.get("plain", {}).get("group")

    def warnings(self):
        yield from self.routes_of_nothing()
        yield from self.links_that_meet()
        yield from self.listening_to_a_group()
        yield from self.ports_with_a_privilege()
        yield from self.sends_from_the_loopback()
        yield from self.sends_to_no_machine()
        yield from self.plain_among_datagrams()
        yield from self.alerts_without_a_route()
        yield from self.headings_without_a_route()
        yield from self.navigation_without_a_route()
        yield from self.errors_beside_navigation()
        yield from self.heartbeats_by_themselves()

    def sent(self):
        """All that is sent, by where it goes."""
        yield from (Sent(link, f"{link}.send", (link, "send"), self.sends[link]) for link in ("net", "bus"))
        yield from (Sent("net", f"route.{number}.address", ("route", number - 1, "address"), target) for number, target in self.routes.values())

    def routes_of_nothing(self):
        groups = self.accepted.groups() | ({self.plain} if self.plain else set())
        for group, (number, _) in self.routes.items():
            if group not in groups:
                why = f"nothing is sent to {group}: the groups that something is sent to are {', '.join(sorted(groups))}"
                yield Warned(f"route.{number}.group", self.place("route", number - 1, "group"), why)

    def links_that_meet(self):
        """Both links on one port, and a link that sends to itself or to the other one."""
        if self.listens["bus"].meets(self.listens["net"]):
            why = "both links listen on one port: `serve` can't begin, and ends with status 9"
            yield Warned("bus.listen", self.place("bus", "listen") or self.place("net", "listen"), why)
        for link in ("bus", "net"):
            for other in ("bus", "net"):
                if self.listens[other].hears(self.sends[link]):
                    why = f"what the gateway sends comes back to it: {other}.listen is {self.listens[other]}"
                    yield Warned(f"{link}.send", self.place(link, "send") or self.place(other, "listen"), why)

    def listening_to_a_group(self):
        for link, listen in self.listens.items():
            if listen.is_multicast():
                why = f"{listen.host} is a multicast group, and the gateway joins none: it hears nothing unless another program of this machine has joined it"
                yield Warned(f"{link}.listen", self.place(link, "listen"), f"{why}. Listen on 0.0.0.0:{listen.port}, and let netlink join the group")

    def ports_with_a_privilege(self):
        for link, listen in self.listens.items():
            if listen.port < FIRST_FREE_PORT:
                why = f"port {listen.port} is below {FIRST_FREE_PORT}, and the service may listen on none of these: `serve` ends with status 9"
                yield Warned(f"{link}.listen", self.place(link, "listen"), why)

    def sends_from_the_loopback(self):
        for link, path, keys, target in self.sent():
            listen = self.listens[link]
            if listen.is_loopback() and not target.is_loopback() and not target.is_of_all():
                fate = "goes nowhere, and no report tells it" if target.is_multicast() else "is rule 50"
                why = f"{link}.listen is {listen}, of the loopback: each send from there to {target.host} {fate}"
                yield Warned(path, self.place(*keys) or self.place(link, "listen"), f"{why}. Listen on 0.0.0.0:{listen.port} to reach other machines")

    def sends_to_no_machine(self):
        for _, path, keys, target in self.sent():
            if target.is_of_all():
                why = "0.0.0.0 is the address of no other machine: what is sent there comes to this one. Name a machine, or a broadcast or multicast address"
                yield Warned(path, self.place(*keys), why)

    def alerts_without_a_route(self):
        """Alerts go where all goes that has no route, and who shows alarms may listen elsewhere."""
        group = self.accepted.root.get("watch", {}).get("group")
        if group is not None and group not in self.routes:
            why = f"{group} has no route, so alerts go to {self.sends['net']} like all else without one. Give it a route to who shows alarms"
            yield Warned("watch.group", self.place("watch", "group"), why)

    def headings_without_a_route(self):
        """Joined headings go where the row's own go, and who hears both has two HDG."""
        group = self.accepted.root.get("heading", {}).get("group")
        if group is not None and group not in self.routes:
            why = f"{group} has no route, so joined headings go to {self.sends['net']} like all else without one. Give it a route to who shows the true heading"
            yield Warned("heading.group", self.place("heading", "group"), why)

    def navigation_without_a_route(self):
        """Navigation goes where all goes that has no route, and a pilot's converter listens to one address."""
        group = self.accepted.root.get("nav", {}).get("group")
        if group is not None and group not in self.routes:
            why = f"{group} has no route, so navigation goes to {self.sends['net']} like all else without one. Give it a route to where the pilot listens"
            yield Warned("nav.group", self.place("nav", "group"), why)

    def errors_beside_navigation(self):
        """The row's XTE where navigation goes, though another device may be taken for it: a pilot gets the errors of two."""
        navigation, row = self.accepted.root.get("nav", {}), self.accepted.row("cross_track")
        if "group" not in navigation or choice_of(row) == choice_of(navigation):
            return
        group = row.get("group", self.accepted.value("gateway", "group"))
        target = self.target(group)
        if target == self.target(navigation["group"]):
            place = self.place("row", "cross_track", "sources") or self.place("nav", "sources") or self.place("nav", "group")
            why = f"XTE of this row goes to {target}, as navigation does, and may be that of another plotter: nav chooses other devices"
            yield Warned("row.cross_track.sources", place, f"{why}. Choose the same ones, or give {navigation['group']} a route of its own")

    def target(self, group):
        """Where the datagrams of a group go."""
        return self.routes.get(group, (None, self.sends["net"]))[1]

    def plain_among_datagrams(self):
        """Plain sentences at an address where datagrams go: who reads the one can't read the other."""
        if self.plain is None:
            return
        number, target = self.routes.get(self.plain, (None, self.sends["net"]))
        place = self.place("plain", "group") if number is None else self.place("route", number - 1, "address")
        path = "plain.group" if number is None else f"route.{number}.address"
        beside = sorted(group for group in self.accepted.groups() if self.target(group) == target)
        if beside:
            why = f"plain sentences go to {target}, where the datagrams of {', '.join(beside)} go too"
        elif target in OF_DATAGRAMS:
            why = f"plain sentences go to {target}, which IEC 61162-450 gives to datagrams"
        else:
            return
        cure = f"Give {self.plain} a route to where your programs listen" if number is None else "Take an address that no datagrams go to"
        yield Warned(path, place, f"{why}: programs that read the one can't read the other. {cure}")

    def heartbeats_by_themselves(self):
        """Heartbeats that alone have no route: who hears all else doesn't hear them."""
        group = self.accepted.root.get("heartbeat", {}).get("group")
        others = self.accepted.groups() - {group}
        if group is not None and group not in self.routes and others.issubset(self.routes):
            why = f"heartbeats alone go to {self.sends['net']}, since each other group has a route. Give {group} one, to where your displays listen"
            yield Warned("heartbeat.group", self.place("heartbeat", "group"), why)
