"""Endpoints as the configuration has them, and what gRPC's library calls the same sockets."""
import os
import socket
from urllib.parse import quote, unquote, urlsplit

from reference import masking

# What the system allows for the name of a unix socket, without the zero byte at its end.
NAME_LIMIT = 107


def target_of(endpoint: str) -> str:
    """The library's target for `unix:///PATH` or, of an abstract socket, `unix:///@NAME`."""
    if any(not " " < char <= "~" for char in endpoint):
        raise ValueError(f"{masking.endpoint(endpoint)} has a space, or a character beyond ASCII")
    try:
        parts = urlsplit(endpoint)
    except ValueError:
        # (whose words would show a part of it)
        raise ValueError(f"{masking.endpoint(endpoint)} isn't unix:///PATH") from None
    path = unquote(parts.path)
    if parts.scheme != "unix" or parts.netloc or parts.query or parts.fragment or len(path) < 2:
        raise ValueError(f"{masking.endpoint(endpoint)} isn't unix:///PATH")
    if len(path.encode()) > NAME_LIMIT:
        raise ValueError(f"{masking.endpoint(endpoint)} has a path of more than {NAME_LIMIT} bytes")
    if path.startswith("/@"):
        return f"unix-abstract:{quote(path[2:])}"
    return f"unix:{quote(path)}"


def nobody_at(endpoint: str) -> str | None:
    """Why nobody can answer at an endpoint now, as the system says at once; None where somebody listens there."""
    path = unquote(urlsplit(endpoint).path)
    name = "\0" + path[2:] if path.startswith("/@") else path
    with socket.socket(socket.AF_UNIX) as probe:
        try:
            probe.connect(name)
        except OSError as error:
            return f"{path.removeprefix('/') if path.startswith('/@') else path}: {os.strerror(error.errno)}"
    return None
