"""Kubernetes' own code out of Debian's source package `kubernetes`: got by apt with lists of its own, built once with Debian's Go
without a network, and kept by the package's version outside of the repository."""

import contextlib
import hashlib
import os
import re
import shutil
import subprocess
import tempfile
from collections.abc import Iterator
from dataclasses import dataclass
from pathlib import Path

HERE = Path(__file__).resolve().parent
PACKAGE, BINARY_PACKAGE = "kubernetes", "kubernetes-client"
KEYRING = "/usr/share/keyrings/debian-archive-keyring.gpg"
# The vendored reflect2 1.0.1 reads maps as Go before 1.18 had them; Debian's stands in for it.
REFLECT2 = Path("/usr/share/gocode/src/github.com/modern-go/reflect2")
VENDORED_REFLECT2 = "vendor/github.com/modern-go/reflect2"
# The one generated file that the package hasn't, and the command that makes it.
OPENAPI = "pkg/generated/openapi"
NEEDED = {"go": "golang-go", "apt-get": "apt", "dpkg-source": "dpkg-dev"}
# How many processors a build takes.
PROCESSORS = 2


class Missing(Exception):
    """Why nothing can be built here."""


@dataclass(frozen=True)
class Release:
    """A source package: its version, and where apt has it from."""

    version: str
    uri: str
    suite: str
    component: str

    @property
    def upstream(self) -> str:
        """Kubernetes' own version, as `1.20.2`."""
        return re.sub(r"^.*really", "", self.version).split("-")[0].split("+")[0]


def release() -> Release:
    """The source package of the suite that this machine's apt has."""
    for program, package in NEEDED.items():
        if shutil.which(program) is None:
            raise Missing(f"there is no {program} (tools/install-checks installs {package})")
    if not REFLECT2.is_dir():
        raise Missing("there is no golang-github-modern-go-reflect2-dev (tools/install-checks installs it)")
    told = subprocess.run(["apt-cache", "madison", BINARY_PACKAGE], capture_output=True, text=True, check=False).stdout
    found = re.search(r"\| *(\S+) \| *(\S+) (\S+)/(\S+) \S+ Packages", told)
    if found is None:
        raise Missing(f"apt knows no package {BINARY_PACKAGE}")
    return Release(re.sub(r"\+b[0-9]+$", "", found[1]), found[2], found[3], found[4])


def cache() -> Path:
    named = os.environ.get("XDG_CACHE_HOME")
    return (Path(named) if named else Path.home() / ".cache") / "kmsrest"


def run(words: list[object], folder: Path, environment: dict[str, str] | None = None) -> None:
    """Runs a program, whose words on standard error tell why it failed."""
    done = subprocess.run(
        [str(word) for word in words], cwd=folder, env=environment, capture_output=True, text=True, check=False
    )
    if done.returncode != 0:
        last = (done.stderr.strip() or done.stdout.strip() or "no word").splitlines()[-1]
        raise Missing(f"{words[0]} {words[1]} ended with {done.returncode}: {last}")


def get_source(it: Release, folder: Path) -> Path:
    """Downloads the source package, whose signatures apt judges, and unpacks it."""
    lists = folder / "apt"
    for name in ("lists/partial", "cache/archives/partial", "etc/parts"):
        (lists / name).mkdir(parents=True)
    (lists / "etc" / "list").write_text(f"deb-src [signed-by={KEYRING}] {it.uri} {it.suite} {it.component}\n")
    options = {
        "Dir::Etc::sourcelist": lists / "etc" / "list",
        "Dir::Etc::sourceparts": lists / "etc" / "parts",
        "Dir::State::lists": lists / "lists",
        "Dir::Cache": lists / "cache",
        # (as root apt would download as a user who may not write here)
        "APT::Sandbox::User": "root",
    }
    words = [word for name, value in options.items() for word in ("-o", f"{name}={value}")]
    run(["apt-get", "update", "-q", "-o", "APT::Update::Error-Mode=any", *words], folder)
    run(["apt-get", "source", "--download-only", "-q", *words, f"{PACKAGE}={it.version}"], folder)
    described = next(folder.glob("*.dsc"), None)
    if described is None:
        raise Missing(f"apt-get source {PACKAGE}={it.version} left no .dsc")
    top = folder / "gopath" / "src" / "k8s.io" / "kubernetes"
    top.parent.mkdir(parents=True)
    run(["dpkg-source", "--no-check", "-x", described, top], folder)
    shutil.rmtree(top / VENDORED_REFLECT2)
    shutil.copytree(REFLECT2, top / VENDORED_REFLECT2)
    return top


@contextlib.contextmanager
def source_tree(it: Release, room: Path) -> Iterator[Path]:
    """Kubernetes' tree in a folder that is removed behind all."""
    with tempfile.TemporaryDirectory(prefix="building-", dir=room) as folder:
        yield get_source(it, Path(folder))


def go_environment(top: Path) -> dict[str, str]:
    """Go without modules and without a network; its cache stands beside the tree."""
    base = top.parents[3]
    own = {"GOPATH": base / "gopath", "GOCACHE": base / "go-cache", "GOTMPDIR": base, "GO111MODULE": "off"}
    own |= {"CGO_ENABLED": "0", "GOFLAGS": "", "GOPROXY": "off", "GOMAXPROCS": PROCESSORS}
    return {**os.environ, **{name: str(value) for name, value in own.items()}}


def go_build(top: Path, package: str, made: Path, *words: str) -> None:
    run(["go", "build", "-p", PROCESSORS, *words, "-o", made, package], top, go_environment(top))


def build_peer(top: Path, made: Path) -> None:
    """The program around Kubernetes' own encryptionconfig."""
    shutil.copytree(HERE, top / "cmd" / "kmsrest-peer", ignore=lambda _folder, names: {it for it in names if it != "main.go"})
    go_build(top, "./cmd/kmsrest-peer", made, "-ldflags=-s -w")


def make_openapi(top: Path) -> None:
    """What Kubernetes' own Makefile makes before it builds a server."""
    tool = top / "openapi-gen"
    go_build(top, "./vendor/k8s.io/kube-openapi/cmd/openapi-gen", tool)
    folders = sorted({f"k8s.io/kubernetes/{it}" for it in marked_folders(top)})
    words = ["--v", "0", "--logtostderr", "-h", "hack/boilerplate/boilerplate.generatego.txt", "-i", ",".join(folders)]
    words += ["-p", f"k8s.io/kubernetes/{OPENAPI}", "-O", "zz_generated.openapi", "-r", top / "openapi.violations"]
    run([tool, *words], top, go_environment(top))


def marked_folders(top: Path) -> Iterator[str]:
    """The folders whose types stand in the API's description."""
    mark = re.compile(r"^// *\+k8s:openapi-gen=", re.M)
    for part in ("pkg", "staging/src/k8s.io", "cmd", "plugin"):
        for file in (top / part).rglob("*.go"):
            if mark.search(file.read_text(encoding="utf-8", errors="replace")):
                name = str(file.parent.relative_to(top)).replace("staging/src/", "vendor/", 1)
                if not name.startswith(("vendor/k8s.io/code-generator/", "vendor/k8s.io/sample-apiserver/")):
                    yield name


def build_server(top: Path, made: Path, version: str) -> None:
    """The API server whole, which says that it is of this version."""
    make_openapi(top)
    package = "k8s.io/component-base/version"
    major, minor, _patch = version.split(".")
    told = {"gitVersion": f"v{version}", "gitMajor": major, "gitMinor": minor, "gitTreeState": "archive"}
    flags = [f"-X {place}.{name}={value}" for place in (f"k8s.io/kubernetes/vendor/{package}", package) for name, value in told.items()]
    # (the clouds' libraries, which have no part in storage, would be a third of the build)
    go_build(top, "./cmd/kube-apiserver", made, "-tags=providerless", "-ldflags=-s -w " + " ".join(flags))


def kept(name: str, build) -> tuple[Path, Release]:
    """A program of the release, built where it isn't kept yet."""
    it = release()
    folder = cache() / f"{PACKAGE}-{it.version}"
    program = folder / name
    if not os.access(program, os.X_OK):
        folder.mkdir(parents=True, exist_ok=True)
        with source_tree(it, folder) as top:
            made = top.parents[3] / name
            build(top, made)
            made.replace(program)
    return program, it


def peer() -> tuple[Path, Release]:
    """The peer; one that was built of another main.go is another program."""
    of = hashlib.sha256((HERE / "main.go").read_bytes()).hexdigest()[:12]
    return kept(f"peer-{of}", build_peer)


def server() -> tuple[Path, Release]:
    """The API server itself: ten minutes of two processors, and 1.6 GB on the disk meanwhile."""
    return kept("kube-apiserver", lambda top, made: build_server(top, made, release().upstream))
