"""Whether a change of an EncryptionConfiguration may be merged. Nothing here asks a cluster, an etcd or the built program: what
is judged is judged by reference/, what a file says is found as `kmsrest explain` finds it."""

import sys
from pathlib import Path

_BRIDGES = Path(__file__).resolve().parent.parent
for _folder in (_BRIDGES.parent, _BRIDGES, _BRIDGES.parent / "help"):
    if str(_folder) not in sys.path:
        sys.path.append(str(_folder))
