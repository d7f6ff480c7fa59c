#!/usr/bin/env python3
"""A plugin around a plugin, which logs what goes both ways with the secrets left out.

    LOGGED_PLUGIN=PROGRAM LOGGED_FILE=FILE kmsrest .. --plugin p=examples/plugins/logged.py

A line of the log is the time, the process, `>` (a request) or `<` (a reply), and the line, in which the bytes at
`plaintext` are told by their number alone. A line that is no JSON may hold anything, so only its length is logged."""
import base64
import binascii
import json
import os
import subprocess
import sys
from datetime import datetime, timezone


def shown(line):
    """The line without its secrets."""
    try:
        members = json.loads(line)
    except ValueError:
        return f"({len(line)} bytes that are no JSON)"
    if not isinstance(members, dict):
        return f"({len(line)} bytes that are no object)"
    if "plaintext" in members:
        try:
            members["plaintext"] = f"({len(base64.b64decode(members['plaintext'], validate=True))} bytes)"
        except (TypeError, ValueError, binascii.Error):
            members["plaintext"] = "(no base64)"
    return json.dumps(members)


def log(file, way, line):
    now = datetime.now(timezone.utc).isoformat(timespec="milliseconds")
    os.write(file, f"{now} {os.getpid()} {way} {shown(line)}\n".encode())


def main():
    file = os.open(os.environ["LOGGED_FILE"], os.O_WRONLY | os.O_APPEND | os.O_CREAT, 0o600)
    plugin = subprocess.Popen([os.environ["LOGGED_PLUGIN"]], stdin=subprocess.PIPE, stdout=subprocess.PIPE)
    for request in sys.stdin.buffer:
        log(file, ">", request)
        plugin.stdin.write(request)
        plugin.stdin.flush()
        reply = plugin.stdout.readline()
        if not reply:
            return 4
        log(file, "<", reply)
        sys.stdout.buffer.write(reply)
        sys.stdout.buffer.flush()
    plugin.stdin.close()
    return plugin.wait()


if __name__ == "__main__":
    sys.exit(main())
