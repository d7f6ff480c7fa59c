"""Endpoints and certificates, from etcdctl's environment."""

import ssl
from collections.abc import Mapping
from dataclasses import dataclass
from pathlib import Path

from .errors import NoAnswer

ENDPOINTS = "127.0.0.1:2379"
# What etcdctl does and this client doesn't: users, and servers without a known certificate.
FOR_ETCDCTL = ("ETCDCTL_USER", "ETCDCTL_INSECURE_SKIP_TLS_VERIFY", "ETCDCTL_DISCOVERY_SRV")


@dataclass
class Endpoint:
    """Where an etcd listens, as gRPC names it, and whether by TLS (None where nothing says so)."""

    target: str
    is_secure: bool | None

    @classmethod
    def of(cls, text: str) -> "Endpoint":
        for scheme, secure in (("https://", True), ("http://", False), ("unix://", False), ("unixs://", True)):
            if text.startswith(scheme):
                rest = text[len(scheme) :]
                return cls("unix:" + rest if scheme.startswith("unix") else rest.rstrip("/"), secure)
        return cls(text, None)


@dataclass
class Settings:
    """The endpoints, in order, the contents of the files of certificates, and the first setting that only etcdctl knows."""

    endpoints: list[Endpoint]
    authority: bytes | None
    certificate: bytes | None
    key: bytes | None
    for_etcdctl: str | None

    @classmethod
    def of(cls, environment: Mapping[str, str]) -> "Settings":
        files = [content(environment, name) for name in ("ETCDCTL_CACERT", "ETCDCTL_CERT", "ETCDCTL_KEY")]
        named = environment.get("ETCDCTL_ENDPOINTS") or ENDPOINTS
        endpoints = [Endpoint.of(text.strip()) for text in named.split(",") if text.strip()]
        if not endpoints:
            raise NoAnswer("ETCDCTL_ENDPOINTS names no endpoint")
        for endpoint in endpoints:
            if endpoint.is_secure is None:
                # (as etcdctl: an endpoint without a scheme is secure where certificates are named)
                endpoint.is_secure = any(files)
        other = [name for name in FOR_ETCDCTL if environment.get(name) not in (None, "", "false")]
        return cls(endpoints, *files, other[0] if other else None)


def judge_certificates(environment: Mapping[str, str]) -> None:
    """Looks at the files of certificates, each of which exists: grpcio ends the process, or waits for an answer that can't come, where
    one of a pair is missing or they don't go together."""
    authority, certificate, key = (environment.get(name) for name in ("ETCDCTL_CACERT", "ETCDCTL_CERT", "ETCDCTL_KEY"))
    if bool(certificate) != bool(key):
        there, missing = ("CERT", "KEY") if certificate else ("KEY", "CERT")
        raise NoAnswer(f"ETCDCTL_{there} is set, and ETCDCTL_{missing} isn't: a client's certificate and its key go together")
    context = ssl.SSLContext(ssl.PROTOCOL_TLS_CLIENT)
    try:
        if authority:
            context.load_verify_locations(authority)
    except (OSError, ValueError):
        raise NoAnswer("ETCDCTL_CACERT names no certificate in PEM") from None
    try:
        if certificate:
            # (a key with a password would be asked for on the terminal)
            context.load_cert_chain(certificate, key, password=lambda: "")
    except (OSError, ValueError):
        raise NoAnswer("ETCDCTL_CERT and ETCDCTL_KEY are no certificate in PEM with its key, or don't go together") from None


def content(environment: Mapping[str, str], name: str) -> bytes | None:
    """The content of the file that a variable names, if it names one."""
    if not environment.get(name):
        return None
    try:
        return Path(environment[name]).read_bytes()
    except OSError as no:
        raise NoAnswer(f"{name}: {environment[name]}: {no.strerror}") from None
