"""etcd by gRPC."""

import time
from collections.abc import Iterable, Iterator
from dataclasses import dataclass

import grpc
from generated import etcd_pb2 as pb
from google.protobuf.message import Message
from reference import masking

from .errors import BridgeError, NoAnswer, TooLarge
from .etcd import Etcd
from .keys import KeyRange, KeyValue, Write
from .settings import Endpoint, Settings

# Seconds that one call may take, and those between the tries where no endpoint answers.
DEADLINE = 60
WAITS = (0, 0.2, 1, 3)
# (etcd itself says how much it takes; an answer of many large values is longer than grpcio's own limit; an etcd is no
# matter of a proxy for the web)
OPTIONS = [
    ("grpc.max_receive_message_length", -1),
    ("grpc.max_send_message_length", -1),
    ("grpc.enable_http_proxy", 0),
]
# (a socket's path is no authority that a server in Go takes)
OF_SOCKETS = [("grpc.default_authority", "localhost")]
TRIED_AGAIN = (grpc.StatusCode.UNAVAILABLE, grpc.StatusCode.DEADLINE_EXCEEDED)
# Of a transaction that is refused so nothing is done; another failure leaves that open.
NOT_DONE = (
    grpc.StatusCode.INVALID_ARGUMENT,
    grpc.StatusCode.PERMISSION_DENIED,
    grpc.StatusCode.UNAUTHENTICATED,
    grpc.StatusCode.RESOURCE_EXHAUSTED,
    grpc.StatusCode.UNIMPLEMENTED,
)
# (the second where it is larger than the server's gRPC takes)
TOO_LARGE = ("request is too large", "message larger than max")


def channel_to(endpoint: Endpoint, settings: Settings) -> grpc.Channel:
    options = OPTIONS + (OF_SOCKETS if endpoint.target.startswith("unix:") else [])
    if not endpoint.is_secure:
        return grpc.insecure_channel(endpoint.target, options=options)
    credentials = grpc.ssl_channel_credentials(settings.authority, settings.key, settings.certificate)
    return grpc.secure_channel(endpoint.target, credentials, options=options)


def kept(found: pb.KeyValue) -> KeyValue:
    return KeyValue(found.key, found.value, found.mod_revision, found.create_revision)


@dataclass
class Member:
    """A channel to an endpoint, and whether that has named its cluster since it last failed."""

    channel: grpc.Channel
    is_met: bool = False

    def ask(self, name: str, request: Message, answer: type[Message]) -> Message:
        call = self.channel.unary_unary(f"/etcdserverpb.KV/{name}", type(request).SerializeToString, answer.FromString)
        return call(request, timeout=DEADLINE)


class ByGrpc(Etcd):
    """Channels to the endpoints, the one that answered last first."""

    def __init__(self, settings: Settings):
        super().__init__()
        self.members = [Member(channel_to(endpoint, settings)) for endpoint in settings.endpoints]

    def close(self) -> None:
        for member in self.members:
            member.channel.close()

    def call(self, name: str, request: Message, answer: type[Message], written: bytes | None = None) -> Message:
        """The answer of the first endpoint that gives one, which is asked first from then on. Where something is `written`, each
        endpoint first names its cluster by an answer about that key. A transaction that is sent twice changes nothing the second
        time, since it compares what stands there."""
        failure = None
        for wait in WAITS:
            if wait:
                time.sleep(wait)
            for member in list(self.members):
                try:
                    found = self.asked(member, name, request, answer, written)
                except grpc.RpcError as no:
                    failure, member.is_met = no, False
                    if no.code() not in TRIED_AGAIN:
                        raise refusal(no, request) from None
                    self.members.append(self.members.pop(0))
                else:
                    return found
        raise refusal(failure, request)

    def asked(self, member: Member, name: str, request: Message, answer: type[Message], written: bytes | None) -> Message:
        """One endpoint's answer, in which it names its cluster."""
        if written is not None and not member.is_met:
            look = pb.RangeRequest(key=written, limit=1, keys_only=True)
            self.met(member, member.ask("Range", look, pb.RangeResponse))
        was_unsure = self.is_unsure
        self.is_unsure = was_unsure or written is not None
        try:
            found = member.ask(name, request, answer)
        except grpc.RpcError as no:
            if no.code() in NOT_DONE:
                self.is_unsure = was_unsure
            raise
        self.met(member, found)
        self.is_unsure = False
        return found

    def met(self, member: Member, found: Message) -> None:
        self.meet(found.header.cluster_id, found.header.revision)
        member.is_met = True

    def told_pages(self, span: KeyRange, size: int) -> Iterator[list[KeyValue]]:
        start = span.start
        while True:
            request = pb.RangeRequest(key=start, range_end=span.end, limit=size, revision=self.revision)
            found = self.call("Range", request, pb.RangeResponse)
            yield [kept(one) for one in found.kvs]
            if not found.more:
                return
            if not found.kvs:
                raise NoAnswer("etcd tells that there is more, and tells no key")
            start = found.kvs[-1].key + b"\0"

    def swap(self, writes: list[Write], with_values: bool = True) -> list[KeyValue | None] | None:
        request = pb.TxnRequest(
            compare=[one for it in writes for one in compares(it, with_values)],
            success=[
                pb.RequestOp(request_put=pb.PutRequest(key=it.key, value=it.value, ignore_lease=True)) for it in writes
            ],
            failure=looks(it.key for it in writes),
        )
        found = self.call("Txn", request, pb.TxnResponse, writes[0].key)
        return None if found.succeeded else seen(found)

    def now(self, keys: list[bytes]) -> list[KeyValue | None]:
        return seen(self.call("Txn", pb.TxnRequest(success=looks(keys)), pb.TxnResponse))


def compares(write: Write, with_values: bool) -> Iterator[pb.Compare]:
    """What must hold of a key, so that it is put."""
    equal = {"result": pb.Compare.EQUAL, "key": write.key}
    yield pb.Compare(target=pb.Compare.MOD, mod_revision=write.mod, **equal)
    if write.create is not None:
        yield pb.Compare(target=pb.Compare.CREATE, create_revision=write.create, **equal)
    if with_values:
        yield pb.Compare(target=pb.Compare.VALUE, value=write.old, **equal)


def looks(keys: Iterable[bytes]) -> list[pb.RequestOp]:
    return [pb.RequestOp(request_range=pb.RangeRequest(key=key)) for key in keys]


def seen(answer: pb.TxnResponse) -> list[KeyValue | None]:
    """What each look of a transaction found."""
    ranges = [one.response_range.kvs for one in answer.responses]
    return [kept(found[0]) if found else None for found in ranges]


def values_of(request: Message) -> list[bytes]:
    """The values that a request carries."""
    if not isinstance(request, pb.TxnRequest):
        return []
    return [one.request_put.value for one in request.success] + [one.value for one in request.compare]


def refusal(no: grpc.RpcError, request: Message) -> BridgeError:
    """What a failed call says. Its words are a server's: in one line, without what looks like a key, and without the values that it
    was given. Of a request that is too large, which may have many of them, these words alone."""
    text = no.details() or ""
    too_large = next((told for told in TOO_LARGE if told in text), None)
    kind, said = (TooLarge, too_large) if too_large else (NoAnswer, masking.foreign(text, values_of(request)))
    how = "gives no answer" if no.code() in TRIED_AGAIN else "refuses"
    return kind(f"etcd {how}: {no.code().name}: {said}")
