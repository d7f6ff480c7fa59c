"""Configurations, and opening values by them. A value must open to an object of an API server: under aescbc, which has no tag,
one of 256 values opens to rubbish by another secret of the same name, and a rewrite would seal that anew for good."""

import importlib.util
import json
from collections.abc import Iterable

from reference import configuration, plugins
from reference.outside import MOST_CONFIG
from reference.store import tag
from reference.values import Refused as ValueRefused
from reference.values import check_of, reader_of, unseal

from .errors import Refused
from .plugin_lines import Links

PROTOBUF = b"k8s\0"
CBOR = b"\xd9\xd9\xf7"


def is_object(data: bytes) -> bool:
    """Whether data begin as an API server writes objects; JSON is read to its end, since one byte of rubbish in 256 is `{`."""
    if data.startswith(PROTOBUF) or data.startswith(CBOR):
        return True
    if not data.startswith(b"{"):
        return False
    try:
        return isinstance(json.loads(data), dict)
    except (ValueError, RecursionError):
        return False


def provider_name(provider: tuple) -> str:
    return f"{provider[0]}:{provider[1]}" if provider[1] else provider[0]


def entries_of(name: str) -> list:
    """The entries of a configuration's file."""
    try:
        with open(name, "rb") as file:
            content = file.read(MOST_CONFIG + 1)
    except OSError as no:
        raise Refused(f"the configuration {name}: {no.strerror}") from None
    if len(content) > MOST_CONFIG:
        raise Refused(f"the configuration {name} has more than {MOST_CONFIG} bytes")
    try:
        return configuration.read(content)
    except configuration.Breach as no:
        raise Refused(f"the configuration {name}: text {no.code} {no.first} {no.second}") from None


class Configuration:
    """What a configuration's file means. Values of plugins open by the programs that were given."""

    def __init__(self, entries: list, programs: dict[str, str]):
        self.entries, self.links = entries, Links(programs)

    @classmethod
    def read(cls, name: str, programs: Iterable[tuple[str, str]] = ()) -> "Configuration":
        if importlib.util.find_spec("cryptography") is None:
            raise Refused("values are opened by Python's cryptography, which isn't here")
        return cls(entries_of(name), dict(programs))

    def providers(self, resource: str) -> list[tuple]:
        return configuration.list_for(self.entries, resource)

    def reader(self, resource: str, value: bytes) -> tuple:
        """The provider that reads a value of the resource."""
        provider = reader_of(self.providers(resource), value)
        if provider is None:
            who = tag(value).decode()
            how = "stored in the clear" if who == "plain" else f"sealed by {who}"
            raise Refused(f"no provider of {resource} reads the value, {how}")
        return provider

    def data_of(self, resource: str, path: bytes, value: bytes) -> bytes:
        """The data of a value, which is refused where it doesn't open."""
        provider = self.reader(resource, value)
        try:
            return unseal([provider], path, value, self.by_plugin)[0]
        except ValueRefused as no:
            raise Refused(f"{provider_name(provider)} doesn't open the value: {no.text()}") from None

    def object_of(self, resource: str, path: bytes, value: bytes) -> bytes:
        """The data of a value, which must be an object."""
        data = self.data_of(resource, path, value)
        if not is_object(data):
            name = provider_name(self.reader(resource, value))
            raise Refused(f"{name} opens the value to what is no object of an API server: another secret of that name?")
        return data

    def check_of_value(self, resource: str, path: bytes, value: bytes) -> bytes:
        """The check that a store keeps beside a value, which is opened where its key is at hand."""
        provider = self.reader(resource, value)
        if provider[0] in ("aescbc", "aesgcm"):
            self.object_of(resource, path, value)
        return check_of(provider)

    def by_plugin(self, name: str, path: bytes, body: bytes) -> tuple[bytes, bool]:
        unused = ((b"", {}, b""), b"")
        return plugins.unseal({name: unused}, {name: self.links.of(name)}, name, path, body)

    def close(self) -> None:
        self.links.close()
