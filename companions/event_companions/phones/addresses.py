"""Which address phones reach this machine at: what can be known of it, and what is asked."""
from __future__ import annotations

import ipaddress
import subprocess
import sys
import urllib.parse
from typing import Callable, Optional

from event_companions.core.program import Declined

PORT = 8080
NOT_KNOWN = """\
Name the address that the phones reach, as: --at http://192.168.1.10:8080
`hostname -I` says which addresses this machine has."""


def own_addresses() -> list[str]:
    """Of this machine, as `hostname -I` names them: IPv4 first, and none that reaches no other machine."""
    try:
        ran = subprocess.run(["hostname", "-I"], stdin=subprocess.DEVNULL, stdout=subprocess.PIPE, text=True)
    except OSError:
        return []
    found = [ipaddress.ip_address(word) for word in ran.stdout.split()]
    reached = [address for address in found if not address.is_loopback and not address.is_link_local]
    return [str(address) for address in sorted(reached, key=lambda address: address.version)]


def offered(port: int = PORT) -> list[str]:
    """The same as `--at` takes them."""
    hosts = [f"[{address}]" if ":" in address else address for address in own_addresses()]
    return [f"http://{host}:{port}" for host in hosts]


def is_of_this_machine_alone(at: str) -> bool:
    """Whether no phone reaches it."""
    host = urllib.parse.urlsplit(at).hostname or ""
    try:
        return ipaddress.ip_address(host).is_loopback
    except ValueError:
        return host == "localhost"


def listed(addresses: list[str]) -> str:
    return "".join(f"\n{number:3}  {address}" for number, address in enumerate(addresses, 1))


def address_chosen(
    why: str,
    port: int = PORT,
    ask: Optional[Callable[[str], str]] = None,
    find: Callable[[int], list[str]] = offered,
) -> str:
    """The number of an address is asked for at a terminal. Elsewhere they are said, and nothing is begun."""
    addresses = find(port)
    if ask is None and sys.stdin.isatty():
        ask = input
    if not addresses or ask is None:
        shown = f"\nThis machine has:{listed(addresses)}" if addresses else ""
        raise Declined(f"{why}{shown}")
    print(f"{why}\nThis machine has:{listed(addresses)}")
    typed = ask("The number of the one that the phones are on: ").strip()
    if typed not in map(str, range(1, len(addresses) + 1)):
        raise Declined("Nothing was chosen.")
    return addresses[int(typed) - 1]
