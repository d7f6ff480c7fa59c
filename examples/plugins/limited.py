#!/usr/bin/env python3
"""A plugin around a plugin, which waits for each reply only so many seconds.

    LIMITED_PLUGIN=PROGRAM LIMITED_SECONDS=5 kmsrest .. --plugin p=examples/plugins/limited.py

kmsrest waits for a plugin without end. Where no reply comes in time this one ends itself and the plugin, so that the
call is a fault: a reply that came later would be taken for that to the next request."""
import os
import select
import subprocess
import sys
import time


def reply_of(plugin, seconds):
    """The plugin's next line; what came of it where the plugin ends, or the time is over."""
    line, until = b"", time.monotonic() + seconds
    while not line.endswith(b"\n"):
        ready, _, _ = select.select([plugin.stdout], [], [], max(0, until - time.monotonic()))
        piece = os.read(plugin.stdout.fileno(), 65536) if ready else b""
        if not piece:
            break
        line += piece
    return line


def main():
    seconds = float(os.environ["LIMITED_SECONDS"])
    # without a buffer, so that what is read here is all that was written
    plugin = subprocess.Popen([os.environ["LIMITED_PLUGIN"]], stdin=subprocess.PIPE, stdout=subprocess.PIPE, bufsize=0)
    for request in sys.stdin.buffer:
        plugin.stdin.write(request)
        reply = reply_of(plugin, seconds)
        if not reply.endswith(b"\n"):
            print(f"limited.py: the plugin ended, or gave no reply in {seconds:g} seconds", file=sys.stderr)
            plugin.kill()
            return 4
        sys.stdout.buffer.write(reply)
        sys.stdout.buffer.flush()
    plugin.stdin.close()
    return plugin.wait()


if __name__ == "__main__":
    sys.exit(main())
