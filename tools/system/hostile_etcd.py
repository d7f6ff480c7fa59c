"""A server that speaks as an etcd does and answers what none does, in one of several ways."""
import sys
from concurrent.futures import ThreadPoolExecutor

import grpc
from support import TOP

sys.path.insert(0, str(TOP / "bridges"))
from generated import etcd_pb2 as pb  # noqa: E402 (its folder must be on the path first)

CLUSTER = 0x1234
ESCAPES = "no such thing\n\x1b[31m\x1b[2Jred"


def stored(key: bytes) -> pb.KeyValue:
    return pb.KeyValue(key=key, value=b"k8s\0", mod_revision=2, create_revision=2)


class HostileEtcd:
    """Listens on a free port of loopback, as long as it is entered. Its way is one of those of `ranged`."""

    def __init__(self, way: str):
        self.way = way

    def __enter__(self) -> "HostileEtcd":
        self.server = grpc.server(ThreadPoolExecutor(max_workers=2))
        handlers = {
            "Range": grpc.unary_unary_rpc_method_handler(self.ranged, pb.RangeRequest.FromString, pb.RangeResponse.SerializeToString),
            "Txn": grpc.unary_unary_rpc_method_handler(self.transacted, pb.TxnRequest.FromString, pb.TxnResponse.SerializeToString),
        }
        self.server.add_generic_rpc_handlers((grpc.method_handlers_generic_handler("etcdserverpb.KV", handlers),))
        self.endpoint = f"http://127.0.0.1:{self.server.add_insecure_port('127.0.0.1:0')}"
        self.server.start()
        return self

    def __exit__(self, *_error) -> None:
        self.server.stop(None)

    @staticmethod
    def header() -> pb.ResponseHeader:
        return pb.ResponseHeader(cluster_id=CLUSTER, revision=5)

    def ranged(self, request: pb.RangeRequest, context: grpc.ServicerContext) -> pb.RangeResponse:
        if self.way == "escapes":
            context.abort(grpc.StatusCode.FAILED_PRECONDITION, ESCAPES)
        keys = {
            "the same page again and again": [b"/registry/secrets/d/a"],
            "more, and no key": [],
            "a key twice": [b"/registry/secrets/d/a", b"/registry/secrets/d/a"],
            "a key that wasn't asked for": [b"/somewhere/else"],
        }.get(self.way, [])
        has_more = self.way in ("the same page again and again", "more, and no key")
        return pb.RangeResponse(header=self.header(), kvs=map(stored, keys), more=has_more, count=len(keys))

    def transacted(self, _request: pb.TxnRequest, _context: grpc.ServicerContext) -> pb.TxnResponse:
        return pb.TxnResponse(header=self.header(), succeeded=False)
