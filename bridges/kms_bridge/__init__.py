"""What stands between kmsrest's lines of plugins and a KMS v2 plugin over gRPC."""

import sys
from pathlib import Path

# What may be shown of a configuration and of a plugin's words is decided in reference/.
_TOP = str(Path(__file__).resolve().parent.parent.parent)
if _TOP not in sys.path:
    sys.path.append(_TOP)
