"""Configurations that the checks write, in JSON."""

import base64
import json
from dataclasses import dataclass
from pathlib import Path

API_VERSION, KIND = "apiserver.config.k8s.io/v1", "EncryptionConfiguration"


@dataclass(frozen=True)
class Key:
    """A provider: its kind, and of a cipher's key the name and the secret."""

    kind: str
    name: str = ""
    secret: bytes = b""

    @property
    def shown(self) -> str:
        """As kmsrest names it."""
        return f"{self.kind}:{self.name}" if self.name else self.kind

    def element(self) -> dict:
        if self.kind == "identity":
            return {"identity": {}}
        return {self.kind: {"keys": [{"name": self.name, "secret": base64.b64encode(self.secret).decode()}]}}


PLAIN = Key("identity")


def elements(keys: list[Key], joined: bool) -> list[dict]:
    """The providers' elements; `joined` has neighbours of one kind stand in one element."""
    made: list[dict] = []
    for key in keys:
        one = key.element()
        if joined and made and key.kind != "identity" and key.kind in made[-1]:
            made[-1][key.kind]["keys"] += one[key.kind]["keys"]
        else:
            made.append(one)
    return made


def tree(entries: list[tuple[list[str], list[Key]]], joined: bool = True) -> dict:
    resources = [{"resources": names, "providers": elements(keys, joined)} for names, keys in entries]
    return {"apiVersion": API_VERSION, "kind": KIND, "resources": resources}


def write(file: Path, entries: list[tuple[list[str], list[Key]]], joined: bool = True) -> Path:
    file.write_text(json.dumps(tree(entries, joined)), encoding="utf-8")
    return file
