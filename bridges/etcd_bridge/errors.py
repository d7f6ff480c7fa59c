"""Why a bridge stops."""


class BridgeError(Exception):
    """What a person reads, in one line or several."""


class Refused(BridgeError):
    """What is there can't be copied, and nothing was written."""


class NoAnswer(BridgeError):
    """etcd, or the program that speaks to it, gives no answer that can be used."""


class TooLarge(BridgeError):
    """etcd takes no such request, since it is too large."""


class OutputFailed(BridgeError):
    """Standard output takes nothing more; what it should have got is on standard error."""


def visible(foreign: bytes) -> str:
    """Foreign bytes as lines for people show them."""
    return "".join(chr(byte) if 0x20 <= byte <= 0x7E else f"\\x{byte:02x}" for byte in foreign)
