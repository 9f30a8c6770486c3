"""Crossbars of up to 1 MiB that are made to be slow: many connections, ranges, names and keys that come again."""
from collections.abc import Callable

LIMIT = 1 << 20


def filled(unit: Callable[[int], str], limit: int = LIMIT - 3000) -> str:
    """As many of these pieces as fit in the limit."""
    pieces: list[str] = []
    length = 0
    while length < limit:
        pieces.append(unit(len(pieces)))
        length += len(pieces[-1])
    return "".join(pieces[:-1])


def crossbar(nodes: str, connections: str) -> str:
    """A crossbar of these nodes and connections."""
    return '{name:"x",clock:"c",nodes:[' + nodes + '],connections:{' + connections + '}}'


def host(name: str) -> str:
    """A host of this name."""
    return '{name:"%s",type:"host"}' % name


def device(name: str, more: str = "") -> str:
    """A device of this name, with more keys."""
    return '{name:"%s",type:"device"%s}' % (name, more)


def shapes() -> dict[str, str]:
    """Each shape by what is much in it."""
    hosts = "".join(host(f"h{number}") for number in range(32))
    devices = "".join(device(f"d{number}") for number in range(32))
    every = "[" + ",".join(f'"d{number}"' for number in range(32)) + "]"
    member = "{" + filled(lambda number: f"m{number}:1,", LIMIT // 2) + 'name:"h",type:"host"}'
    return {
        "32 hosts with 32 devices each": crossbar(hosts + devices, ",".join(f"h{number}:{every}" for number in range(32))),
        "ranges": crossbar(host("h") + device("d", ",addr_range:[" + filled(lambda _: "{base_addr:0,size_byte:4}") + "]"), 'h:["d"]'),
        "one host again and again": crossbar(hosts + devices, filled(lambda _: "h:[]")),
        "hosts that are none": crossbar(hosts + devices, filled(lambda number: f"k{number}:[]")),
        "devices that are none": crossbar(hosts + devices, "h0:[" + filled(lambda number: f'"e{number}"') + "]"),
        "one device again and again": crossbar(hosts + devices, "h0:[" + filled(lambda _: '"d31"') + "]"),
        "hosts of one name": crossbar(host("h") * 32 + devices, "h:[" + filled(lambda _: '"d31"') + "]"),
        "long names": crossbar(host("h") + device("d"), "h:[" + filled(lambda number: '"' + "n" * 1000 + str(number) + '"') + "]"),
        "members of a node": crossbar(member + devices, "h:[" + filled(lambda number: f'"e{number}"', LIMIT // 3) + "]"),
        "nodes": crossbar(filled(lambda number: host(f"h{number}")), ""),
        "connections that are no lists": crossbar(hosts + devices, filled(lambda number: f"k{number}:1,")),
    }
