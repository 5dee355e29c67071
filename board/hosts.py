"""URLs of a log in PostgreSQL: which hosts they have, and what is said of them. Nothing here speaks to a database."""
import asyncio
import contextlib
import socket
from collections.abc import Iterable
from urllib.parse import parse_qsl, urlencode, urlsplit

from board.words import Fault


def is_url(log: str) -> bool:
    """Whether a log is in PostgreSQL."""
    return log.startswith(("postgresql:", "postgres:"))


def hosts_of(url: str) -> list[str]:
    """A URL with several hosts as URLs with one. Raises Fault."""
    try:
        parts = urlsplit(url)
        who, at, hosts = parts.netloc.rpartition("@")
        query = urlencode([pair for pair in parse_qsl(parts.query) if pair[0] != "target_session_attrs"])
        return [parts._replace(netloc=f"{who}{at}{host}", query=query).geturl() for host in hosts.split(",")]
    except ValueError as fault:
        raise Fault(f"LOG is postgresql://USER@HOST:PORT/DATABASE ({fault})", 2) from None


def name_of(url: str) -> str:
    """A URL without its password, for messages."""
    parts = urlsplit(url)
    who, at, hosts = parts.netloc.rpartition("@")
    query = urlencode([(name, said) for name, said in parse_qsl(parts.query) if name != "password"])
    return parts._replace(netloc=f"{who.partition(':')[0]}{at}{hosts}", query=query).geturl()


async def other_addresses(urls: Iterable[str]) -> list[str]:
    """The same URLs with each further address of their hosts. The first one that doesn't answer takes all the time of a connection."""
    found = []
    for url in urls:
        parts = urlsplit(url)
        if parts.hostname is None:
            continue
        with contextlib.suppress(OSError):
            told = await asyncio.get_running_loop().getaddrinfo(parts.hostname, parts.port or 5432, type=socket.SOCK_STREAM)
            addresses = list(dict.fromkeys(str(address[0]) for *_, address in told))
            who, at, _ = parts.netloc.rpartition("@")
            port = f":{parts.port}" if parts.port else ""
            found += [parts._replace(netloc=f"{who}{at}{f'[{one}]' if ':' in one else one}{port}").geturl() for one in addresses[1:]]
    return found
