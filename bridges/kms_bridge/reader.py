"""Who reads the bridge's answers. A kmsrest that was killed doesn't read any more, and a bridge that waits for its plugin would go on
until its deadline, for nobody."""
import os
import select
import stat
import threading

# As where standard output fails otherwise.
STATUS = 4


def end_without_reader(descriptor: int) -> None:
    """Ends this process once nobody reads what it writes there. Of what is no pipe that isn't told, and it goes on."""
    if stat.S_ISFIFO(os.fstat(descriptor).st_mode):
        threading.Thread(target=_watch, args=(descriptor,), daemon=True).start()


def _watch(descriptor: int) -> None:
    poll = select.poll()
    # (that the other end is gone is told of a pipe though nothing is asked for)
    poll.register(descriptor, 0)
    poll.poll()
    os._exit(STATUS)
