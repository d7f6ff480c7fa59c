"""The pods of examples/kubernetes, run as their files say: their commands, variables, users, volumes and rights, over an etcd with
certificates. What a cluster does beside that, as placing them on nodes, isn't tried."""
import shutil
from dataclasses import dataclass
from pathlib import Path
from typing import Any

import yaml
from cluster_image import Image, Mount
from etcd_bench import NEW, Bench
from support import Checks, Ended

PREFIX = "/registry"
SECRETS = 12
# So many bytes that the values make several parts.
PART_BYTES = 1200


@dataclass(frozen=True)
class Pod:
    """A pod of a file."""

    spec: dict[str, Any]

    @classmethod
    def named(cls, file: Path, name: str) -> "Pod":
        for it in yaml.safe_load_all(file.read_text(encoding="utf-8")):
            if it["metadata"]["name"] == name:
                spec = it["spec"]
                return cls(spec.get("jobTemplate", {"spec": spec})["spec"]["template"]["spec"])
        raise KeyError(name)

    def run(self, image: Image, volumes: dict[str, Path], **environment: str) -> Ended:
        """Its container, over folders of this machine in the places of its volumes."""
        (container,) = self.spec["containers"]
        security = container["securityContext"]
        mounts = [Mount(it["mountPath"], volumes[it["name"]], it.get("readOnly", False)) for it in container["volumeMounts"]]
        own = {it["name"]: it["value"] for it in container["env"]}
        words = [*container["command"], *container.get("args", [])]
        return image.run(words, tuple(mounts), security["runAsUser"], **{**own, **environment})


def volumes_in(room: Path, bench: Bench) -> dict[str, Path]:
    """Folders for the volumes: the certificates, the new configuration, and empty ones."""
    made = {name: room / name for name in ("parts", "config", "pki", "metrics")}
    for folder in made.values():
        folder.mkdir()
    shutil.copy(NEW, made["config"] / "new.yaml")
    certificates = bench.etcd.certificates.folder
    for name in ("ca.crt", "server.crt", "server.key"):
        shutil.copy(certificates / name, made["pki"] / name)
    return made


def rewrite(checks: Checks, bench: Bench, image: Image, file: Path, volumes: dict[str, Path], room: Path) -> None:
    """The import makes parts, a pod of each index seals its part anew, and no value of the old key is left."""
    own = {"ETCDCTL_ENDPOINTS": bench.etcd.endpoint}
    done = Pod.named(file, "import-parts").run(image, volumes, **own, PART_BYTES=str(PART_BYTES))
    parts = [line for line in done.output.decode().splitlines() if line.startswith("part ")]
    checks.expect("the import makes several parts, and says how many", (0, True), (done.status, len(parts) > 1))
    pod = Pod.named(file, "rewrite-parts")
    for index in range(len(parts)):
        work = room / f"work-{index}"
        work.mkdir()
        done = pod.run(image, {**volumes, "work": work}, **own, JOB_COMPLETION_INDEX=str(index))
        lines = {"left 0", "changed 0"} - set(done.output.decode().splitlines())
        checks.expect(f"the pod of index {index} seals its part anew and writes it back", (0, set()), (done.status, lines))
    checks.expect("no value of the old key is left", (0, []), bench.still(PREFIX, "aescbc:key1"))
    work = room / "work-none"
    work.mkdir()
    done = pod.run(image, {**volumes, "work": work}, **own, JOB_COMPLETION_INDEX=str(len(parts)))
    checks.expect("a pod of an index without a part fails", True, done.status != 0)
    again = pod.run(image, {**volumes, "work": room / "work-0"}, **own, JOB_COMPLETION_INDEX="0")
    told = [line for line in again.output.decode().splitlines() if line.startswith("written ")]
    checks.expect("a new pod of a part that is done writes nothing, and fails", (1, ["written 0"]), (again.status, told))


def audit(checks: Checks, bench: Bench, image: Image, file: Path, volumes: dict[str, Path]) -> str:
    """The CronJob's pod writes the counts whole; they are answered. Where etcd doesn't answer the old ones stay."""
    pod, kept = Pod.named(file, "kmsrest-audit"), volumes["metrics"] / "kmsrest.prom"
    done = pod.run(image, volumes, ETCDCTL_ENDPOINTS=bench.etcd.endpoint)
    counts = kept.read_text(encoding="utf-8") if kept.exists() else ""
    wanted = f'kmsrest_stored_values{{resource="secrets",provider="aescbc:key2",key_id=""}} {SECRETS}'
    checks.expect("the audit's pod writes the counts", (0, True), (done.status, wanted in counts.splitlines()))
    done = pod.run(image, volumes, ETCDCTL_ENDPOINTS="https://127.0.0.1:1")
    left = kept.read_text(encoding="utf-8") if kept.exists() else ""
    checks.expect("where etcd doesn't answer it fails, and the old counts stay", (True, counts), (done.status != 0, left))
    return counts


def check(checks: Checks, bench: Bench, image: Image, files: dict[str, Path], room: Path) -> str:
    """Both files, one behind the other. Answers the audit's counts."""
    bench.sealed(PREFIX, SECRETS)
    volumes = volumes_in(room, bench)
    rewrite(checks, bench, image, files["rewrite"], volumes, room)
    return audit(checks, bench, image, files["audit"], volumes)
