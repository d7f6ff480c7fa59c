"""A KMS v2 plugin over gRPC: each call with a deadline, and tried again where the plugin wasn't reached."""
import time
import uuid
from collections.abc import Mapping
from dataclasses import dataclass, field
from typing import Any

import grpc
from generated import kms_pb2
from reference import masking

SERVICE = "/v2.KeyManagementService/"
# What a later try may change: nobody was there, or nobody answered in time.
TRIED_AGAIN = (grpc.StatusCode.UNAVAILABLE, grpc.StatusCode.DEADLINE_EXCEEDED)
# Seconds before the first of the later tries; the double of it before each further one, up to the most.
FIRST_PAUSE, MOST_PAUSE = 0.1, 1.0
OPTIONS = (
    # The host that the API server names to its plugins.
    ("grpc.default_authority", "localhost"),
    ("grpc.enable_http_proxy", 0),
    # A plugin that comes late is found soon: the library's own pauses grow to two minutes.
    ("grpc.initial_reconnect_backoff_ms", 100),
    ("grpc.min_reconnect_backoff_ms", 100),
    ("grpc.max_reconnect_backoff_ms", 500),
)


@dataclass(frozen=True)
class Asking:
    """How a call went, whatever was answered."""

    uid: str
    tries: int
    seconds: float


@dataclass(frozen=True)
class Answer:
    """What a call was answered."""

    response: Any = field(repr=False)
    asking: Asking


class CallFailed(Exception):
    """A call that wasn't answered: the last try's code and the plugin's words."""

    def __init__(self, code: str, words: str, asking: Asking):
        super().__init__(f"{code}: {words}" if words else code)
        self.code = code
        self.words = words
        self.asking = asking


class Plugin:
    """The plugin at a target, asked through one channel. Nothing is connected before the first call."""

    def __init__(self, target: str, timeout: float, retries: int):
        self._timeout = timeout
        self._retries = retries
        self._channel = grpc.insecure_channel(target, options=OPTIONS)
        self._status = self._method("Status", kms_pb2.StatusRequest, kms_pb2.StatusResponse)
        self._encrypt = self._method("Encrypt", kms_pb2.EncryptRequest, kms_pb2.EncryptResponse)
        self._decrypt = self._method("Decrypt", kms_pb2.DecryptRequest, kms_pb2.DecryptResponse)

    def _method(self, name: str, asked: Any, answered: Any) -> Any:
        return self._channel.unary_unary(SERVICE + name, asked.SerializeToString, answered.FromString)

    def close(self) -> None:
        """Lets the channel go."""
        self._channel.close()

    def status(self) -> Answer:
        """Its version, its health, and the id of its current key."""
        return self._ask(self._status, kms_pb2.StatusRequest(), "")

    def encrypt(self, plaintext: bytes) -> Answer:
        """Wraps these bytes under its current key."""
        uid = str(uuid.uuid4())
        return self._ask(self._encrypt, kms_pb2.EncryptRequest(plaintext=plaintext, uid=uid), uid, plaintext)

    def decrypt(self, ciphertext: bytes, key_id: str, annotations: Mapping[str, bytes]) -> Answer:
        """Unwraps what it wrapped under that key id, with these annotations."""
        uid = str(uuid.uuid4())
        request = kms_pb2.DecryptRequest(ciphertext=ciphertext, uid=uid, key_id=key_id, annotations=annotations)
        return self._ask(self._decrypt, request, uid, ciphertext, *annotations.values())

    def _ask(self, method: Any, request: Any, uid: str, *given: bytes) -> Answer:
        """Asks up to 1 + retries times, under one uid; each try has the whole timeout. The bytes that were given aren't shown where
        the plugin's words repeat them."""
        began, pause, tries = time.monotonic(), FIRST_PAUSE, 0
        while True:
            tries += 1
            try:
                response = method(request, timeout=self._timeout, wait_for_ready=True)
                return Answer(response, Asking(uid, tries, time.monotonic() - began))
            except grpc.RpcError as error:
                if error.code() not in TRIED_AGAIN or tries > self._retries:
                    asking = Asking(uid, tries, time.monotonic() - began)
                    words = masking.foreign(error.details() or "", given)
                    raise CallFailed(error.code().name, words, asking) from None
            time.sleep(pause)
            pause = min(2 * pause, MOST_PAUSE)
