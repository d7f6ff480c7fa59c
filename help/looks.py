"""What can be seen of the files, plugins and stores that a call names."""

import os
import re
import shutil
import stat
from pathlib import Path

import plain_files
from call_words import entries_of, provider_text
from reference import configuration, store
from reference.values import reader_of

MAGICS = (b"KRSTORE1", b"KRSTORE2")
RANDOM_DEVICE = "/dev/urandom"
INTO = "bridges/kms-bridge --into plugins --config FILE writes a program for each plugin of the configuration, and prints the word --plugin for it"


def is_read_only(path):
    try:
        return bool(os.statvfs(path).f_flag & os.ST_RDONLY)
    except OSError:
        return False


def holder_of(path, writes):
    """The process whose lock keeps out one that reads the store, or that writes it, as the system lists locks; or None. Calls
    that only read go side by side. Nothing is locked for that."""
    found = os.stat(path)
    place = f"{os.major(found.st_dev):02x}:{os.minor(found.st_dev):02x}:{found.st_ino}"
    try:
        lines = Path("/proc/locks").read_text(encoding="utf-8").splitlines()
    except OSError:
        return None
    locks = [words for words in map(str.split, lines) if words[1] == "FLOCK" and words[5] == place]
    return next((words[4] for words in locks if writes or words[3] == "WRITE"), None)


def file_fault(name, is_store=False, writes=False):
    """What is wrong with a file that is to be read, or with a store, which a call may write; or None."""
    path, folder = Path(name), Path(name).parent
    try:
        found = path.stat()
    except FileNotFoundError:
        if path.is_symlink():
            return f"a link to {os.readlink(path)}, which isn't there", "make what it names, or name another file"
        if not folder.exists():
            return f"its folder {folder} isn't there", f"mkdir -p {folder}, or name it from the current folder, {os.getcwd()}"
        if writes and is_read_only(folder):
            return f"its folder {folder} is on a read-only file system", "name a file elsewhere; this call makes the store"
        if writes and not os.access(folder, os.W_OK | os.X_OK):
            return f"there is no right to make it in {folder}", "run as the folder's owner, or name a file elsewhere"
        return "it isn't there", f"name it from the current folder, {os.getcwd()}" + similar(path)
    except NotADirectoryError:
        return "its path goes through what is no folder", "name the file itself"
    except PermissionError:
        return "its folder may not be entered", "run as a user who may, or change the folder's mode"
    except OSError as error:
        return error.strerror, "name another file"
    if stat.S_ISDIR(found.st_mode):
        return "a folder", "name a file in it"
    if not stat.S_ISREG(found.st_mode) and is_store:
        return "a device, a pipe or a socket", "a store is a plain file"
    if not os.access(path, os.R_OK):
        return "there is no right to read it", f"it has mode {stat.filemode(found.st_mode)} and owner {found.st_uid}; run as its owner"
    if writes and is_read_only(path):
        return "it is on a read-only file system", "copy it to another place; this call writes the store"
    if writes and not os.access(path, os.W_OK):
        return "there is no right to write it", "this call writes the store: run as its owner, or copy it"
    holder = is_store and holder_of(path, writes)
    if holder:
        return f"process {holder} has it open" + ("" if writes else " to write it"), "wait for that one"
    return None


def similar(path):
    import difflib

    try:
        names = [other.name for other in path.parent.iterdir()]
    except OSError:
        return ""
    found = difflib.get_close_matches(path.name, names, 1, 0.6)
    return f"; there is {path.parent / found[0]}" if found else ""


def random_device_fault():
    """What stands in the place of the random device, where that is none, and what to do; or None."""
    if Path(RANDOM_DEVICE).is_char_device():
        return None
    found = "it is no device" if Path(RANDOM_DEVICE).exists() else "it isn't there"
    return found, f"make the device there: mknod -m 666 {RANDOM_DEVICE} c 1 9"


def plugin_fault(name, program):
    """Why a plugin's program can't be started, or None."""
    if program.startswith(("unix:", "tcp:", "http:", "https:")):
        return "it is an endpoint, and a program is wanted that asks it", INTO
    if "/" not in program:
        if shutil.which(program):
            return None
        beside = f": write --plugin {name}=./{program}" if Path(program).exists() else ""
        return "no folder of PATH has it", "a program without / is looked for in PATH alone" + beside
    path = Path(program)
    if not path.exists():
        return "it isn't there", f"name it from the current folder, {os.getcwd()}" + similar(path)
    if path.is_dir():
        return "it is a folder", "name the program in it"
    if path.is_socket():
        return "it is a socket, and a program is wanted that asks it", INTO
    if not path.is_file():
        return "it is a device or a pipe", "name a program"
    if not os.access(path, os.X_OK):
        return "it isn't executable", f"chmod +x {program}"
    try:
        head = plain_files.content(path, 128)
    except OSError:
        return "it is no plain file", "name the program itself"
    if head.startswith(b"#!"):
        reader = head[2:].split(b"\n")[0].decode(errors="replace").split()
        if not reader or not Path(reader[0]).exists():
            # (a file's words may be anything: only what looks like an interpreter's place is shown)
            named = reader[0] if reader and re.fullmatch(r"/[a-z0-9/._+-]{1,60}", reader[0]) else "nothing that is a place"
            return f"its first line names {named}, which isn't there", "mend its first line"
        if head.split(b"\n")[0].endswith(b"\r"):
            return "its first line ends in CR LF", "save it with LF alone"
    elif not head.startswith(b"\x7fELF"):
        return "it has no first line `#!..` and is no program", "begin it by `#!` and its interpreter"
    return None


# ---- stores


def rows_before(name, place):
    """How many whole rows stand before a byte of a store's file, or None."""
    try:
        return len(store.read(plain_files.content(name, place))[1])
    except (OSError, store.Broken):
        return None


def head_of(name):
    """The first bytes of a file; none where it can't be read."""
    try:
        return plain_files.content(name, 8)
    except OSError:
        return b""


# What files begin with that are taken for stores.
KINDS = (
    (b"SQLite format 3", "it begins as a database of SQLite"),
    (b"\x1f\x8b", "it begins as what gzip packed"),
    (b"KRSTORE", "it begins as a store of another format"),
    (b"apiVersion", "it begins as a configuration does: `apiVersion`"),
    (b"{", "it begins as JSON does"),
    (b"fleet 1", "it begins as a fleet file does: `fleet 1`"),
    (b"k8s:enc:", "it begins as a single stored value does, `k8s:enc:`, which is for `decrypt` and `inspect`"),
)


def kind_of_file(name):
    """What a file is that is no store, as far as its first bytes tell, without showing them."""
    try:
        head = plain_files.content(name, 64)
    except OSError:
        return "it can't be read now"
    head = head.removeprefix(b"\xef\xbb\xbf").lstrip(b"-\r\n \t")
    return next((told for magic, told in KINDS if head.startswith(magic)), "its first bytes are none that kmsrest knows")


def breach_of(name):
    """What breaks a store now, a code and a place; `()` where it is whole, None where it can't be read."""
    try:
        store.read(plain_files.content(name))
    except store.Broken as no:
        return no.code, no.place
    except OSError:
        return None
    return ()


def fitting(call, number, resource, provider):
    """A file of the call that reads by the provider, and writes by one that all API servers but this one read; or None."""
    others = [name for at, name in enumerate(call.options.get("replica", ())) if at != number]
    reads = {name: [provider_text(one) for one in providers_in(name, resource)] for name in [*others, *(name for name, _ in call.configurations())]}
    for name, readers in reads.items():
        if provider in readers and all(readers[0] in reads[other] for other in others):
            return name
    return None


def providers_in(name, resource):
    entries = entries_of(name)
    return [] if entries is None else configuration.list_for(entries, resource)


def rows_of(name):
    try:
        return store.read(plain_files.content(name))[1]
    except (OSError, TypeError, store.Broken):
        return None


def row_at(name, path):
    """The live row of a path with its revision, or None."""
    return store.live(rows_of(name) or []).get(path.encode())


def near_path(name, path):
    """The path of a live row that is this one but for a slip, such as a / in front; or None."""
    import difflib

    paths = [one.decode() for one in store.live(rows_of(name) or [])]
    if "/" + path in paths:
        return "/" + path
    # (a person's slip is looked for among few)
    return next(iter(difflib.get_close_matches(path, paths, 1, 0.9)), None) if len(paths) <= 1000 else None


def stored_with(name, path):
    """What is stored at a path, in words."""
    found = row_at(name, path)
    if not found:
        return None
    return f"revision {found[0]} of {found[1].resource.decode()}, by {store.tag(found[1].value).decode()}"


def readers_in(name, resource):
    """A configuration's providers of a resource, in words."""
    entries = entries_of(name)
    return None if entries is None else ", ".join(map(provider_text, configuration.list_for(entries, resource)))


def reader_at(config, name, path):
    """The provider of the configuration that reads what is stored at the path, or None."""
    entries, found = entries_of(config), row_at(name, path)
    if entries is None or not found:
        return None
    return reader_of(configuration.list_for(entries, found[1].resource.decode()), found[1].value)
