"""etcd to kmsrest's store file and back, and what an etcd's values are sealed by."""

import sys
from pathlib import Path

# What is read and written as kmsrest does stands in reference/; protobuf's modules in bridges/generated.
_BRIDGES = Path(__file__).resolve().parent.parent
for _folder in (_BRIDGES.parent, _BRIDGES):
    if str(_folder) not in sys.path:
        sys.path.insert(0, str(_folder))
