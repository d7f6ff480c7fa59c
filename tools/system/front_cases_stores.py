"""What the front end says of a store that is the call's own output."""
import os
from pathlib import Path

from front_cases_plugins import AROUND
from support import TOP, Checks, call, kmsrest_program

OLD = TOP / "examples" / "rotation" / "old.yaml"


def own_output(checks: Checks, room: Path) -> None:
    """A `put` that prints into its store is remarked; one that prints elsewhere isn't."""
    put = [AROUND, kmsrest_program(), "put", "--config", OLD, "--resource", "secrets", "--path", "/registry/secrets/d/s", "--store"]
    done = call([*put, room / "store"], b"hi")
    checks.expect("a store that isn't its output", (0, ""), (done.status, done.errors))
    done = call(["sh", "-c", 'exec "$0" "$@" >>"$OWN"', *put, room / "store"], b"hi", env={**os.environ, "OWN": str(room / "store")})
    checks.expect("a store that is its own output", 1, done.errors.count(f"is the store {room / 'store'} itself"))
