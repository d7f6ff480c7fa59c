"""Whether `kmsrest explain` knows each line that the bridges printed in the cases before."""
import importlib.machinery
import importlib.util
import re
import sys

from etcd_bench import Bench
from etcd_server import TOLD
from support import TOP

# JSON and metrics, and what argparse shows above its own error.
NO_LINES = re.compile(r"\{|#|kmsrest_stored_values|usage: | {8,}")


def told(bench: Bench) -> None:
    """Each line that was printed is known."""
    explain, call = explainer()
    lines = sorted((name, line) for name, line in TOLD if line and not NO_LINES.match(line))
    unknown = [(name, line) for name, line in lines if explain(line, call([f"bridges/{name}"])) is None]
    bench.expect(f"explain knows the {len(lines)} lines that the bridges printed", [], unknown)


def explainer():
    sys.path.append(str(TOP / "help"))
    loader = importlib.machinery.SourceFileLoader("explain", str(TOP / "help" / "explain"))
    module = importlib.util.module_from_spec(importlib.util.spec_from_loader("explain", loader))
    loader.exec_module(module)
    return module.explain, module.Call
