"""Which rule a configuration breaks, on which line, what was found there, and what to do."""

import base64
import json
import re

from reference import configuration, masking, yaml_profile
from reference.configuration import Breach
from trees import placed

NEW_SECRET = "head -c 32 /dev/urandom | base64"
MOST_BYTES = 1_048_576


class Finding:
    """`answer` is the program's line without its front, `line` a line of the file, 0 for none."""

    def __init__(self, answer, line, where, found, do):
        self.answer, self.line, self.where, self.found, self.do = answer, line, where, found, do


class Walked(configuration.Walk):
    """The walk, which remembers where it stands."""

    def __init__(self):
        super().__init__()
        self.path = ()

    def entry(self, number, tree):
        self.path = ("resources", number)
        return super().entry(number, tree)

    def pattern(self, pattern, earlier, *place):
        self.path = ("resources", place[0], "resources", place[1])
        super().pattern(pattern, earlier, *place)

    def element(self, tree, providers, *place):
        self.path = ("resources", place[0], "providers", place[1])
        self.next_key = 0
        super().element(tree, providers, *place)

    def key(self, kind, tree, providers, *place):
        self.path = ("resources", place[0], "providers", place[1], kind, "keys", self.next_key)
        self.next_key += 1
        super().key(kind, tree, providers, *place)

    def plugin(self, tree, providers, *place):
        self.path = ("resources", place[0], "providers", place[1], "kms")
        super().plugin(tree, providers, *place)


def at(tree, path):
    for part in path:
        if isinstance(tree, dict):
            tree = tree.get(part)
        elif isinstance(tree, list) and isinstance(part, int) and part < len(tree):
            tree = tree[part]
        else:
            return None
    return tree


def is_slip_of(key, name):
    """Whether a key is that one but for its case, a blank or a slip, and is no other one."""
    return key.strip().lower() == name.lower() or (key not in masking.MEMBERS and masking.near(key) == name)


def kind_of(node):
    """What stands at a place, in words."""
    if node is None:
        return "nothing"
    names = {str: "a text", bool: "a truth value", int: "a number", float: "a number", list: "a list", dict: "a mapping"}
    return next(name for kind, name in names.items() if isinstance(node, kind))


# ---- one file


def look(data):
    """The first breach of the configuration's bytes as a Finding, or None where it keeps the rules."""
    if len(data) > MOST_BYTES:
        do = "a configuration file has at most 1,048,576 bytes: is it another file?"
        return Finding(f"limit config {MOST_BYTES}", 0, "the whole file", f"it has {len(data)} bytes", do)
    try:
        tree = configuration.read_tree(data)
    except Breach as no:
        return other_file(data, no) or (json_finding(data, no) if no.code == 20 else yaml_finding(data, no))
    walk = Walked()
    try:
        walk.entries(tree)
    except Breach as no:
        return Placing(data, tree, walk.path, no).finding()
    return None


def answer_of(no):
    if no.code == 39:
        return "limit %s %d" % configuration.LIMITS[no.first]
    return f"text {no.code} {no.first} {no.second}"


# What begins otherwise than a configuration, what that is, and what to do.
OTHERS = (
    (b"KRSTORE", "it is a store of kmsrest, not a configuration", "--config names the EncryptionConfiguration; a store is for --store"),
    (b"fleet 1", "it is a fleet file, not a configuration", "--config names the EncryptionConfiguration; a fleet file is for --file of fleet and watch"),
    (b"k8s:enc:", "it is a stored value, not a configuration", "a value goes to the standard input of decrypt or inspect"),
    (b"-----BEGIN", "it is a certificate or a key in PEM, not a configuration", "name the EncryptionConfiguration"),
    (b"SQLite format", "it is a database, not a configuration", "name the EncryptionConfiguration"),
    (b"\x1f\x8b", "it is packed by gzip", "gunzip it first"),
    (b"\xff\xfe", "it is in UTF-16, as Windows writes it", "save it as UTF-8: iconv -f UTF-16 -t UTF-8"),
    (b"\xfe\xff", "it is in UTF-16, as Windows writes it", "save it as UTF-8: iconv -f UTF-16 -t UTF-8"),
    (b"\xef\xbb\xbf", "a byte order mark stands before the first line", "save it as UTF-8 without one: sed -i '1s/^\\xEF\\xBB\\xBF//' FILE"),
)


def other_file(data, no):
    """What a file is that can't be a configuration, as its first bytes tell."""
    for magic, found, do in OTHERS:
        if data.startswith(magic):
            return Finding(answer_of(no), 1, "the first bytes", found, do)
    if b"\0" in data[:4096]:
        return Finding(answer_of(no), 0, "the whole file", "it has zero bytes, as no text has", "is it another file, or in UTF-16? a configuration is text in UTF-8")
    return None


def json_finding(data, no):
    do = "write JSON by the standard: keys and texts in double quotes, no comment, no comma behind the last part"
    try:
        json.loads(data.decode())
    except json.JSONDecodeError as error:
        text = data.decode()
        if text[error.pos : error.pos + 1] in ("]", "}") and text[: error.pos].rstrip().endswith(","):
            error.msg = "a comma stands behind the last part"
        line = text.split("\n")[error.lineno - 1]
        return Finding(answer_of(no), error.lineno, f"column {error.colno}", f"{error.msg}, in {masking.line(line)}", do)
    except UnicodeDecodeError as error:
        return Finding(answer_of(no), data.count(b"\n", 0, error.start) + 1, f"byte {error.start}", "bytes that aren't UTF-8", "save the file as UTF-8")
    except RecursionError:
        pass
    deep = configuration.levels(data.decode())
    if deep > configuration.JSON_LEVELS:
        found = f"lists and objects stand {deep} deep in one another, and 127 is the most"
    else:
        found = "a number above all floats, NaN or Infinity, or half of a surrogate pair"
    return Finding(answer_of(no), 0, "the whole file", found, "it starts with `{`, so it is read as JSON; write it anew")


# What a line of YAML has that the profile hasn't, in the order in which they are tried.
OUTSIDE = (
    (r"^ *\t", "a tab among the leading blanks", "indent by spaces"),
    (r"^(---|\.\.\.)", "a second document or a mark of one", "keep one document in the file; `---` may stand on the first line alone"),
    (r"^[^#]*:\t", "a tab behind a colon", "put a space behind the colon"),
    (r"^[^#'\"]*(: +|- +)&[A-Za-z0-9]", "an anchor (&), which is for an alias elsewhere", "take it away, and write out what stands at its alias"),
    (r"^[^#'\"]*(: +|- +)\*[A-Za-z0-9]", "an alias (*), which stands for an anchor elsewhere", "write out what it stands for"),
    (r"^[^#'\"]*(: +|- +)\*", "a text that begins with * and has no quotes", "put it in quotes: '*.*'"),
    (r"^[^#'\"]*(: +|- +)!", "a tag (!)", "leave the tag out"),
    (r"^[^#'\"]*(: +|- +)[|>]", "a block scalar (| or >)", "write the text on the line of its key"),
    (r"^[^#'\"]*[{]\s*[^}\s]", "a mapping in braces", "write the mapping over several lines, a member a line"),
    (r"^[^#'\"]*\[[^\]]*$", "a list in brackets that goes on behind its line", "close it on its line, or write an item a line"),
    (r"^[^#'\"]*\[.*\].*[^ ]", "a list in brackets of more than plain texts", "write an item a line"),
    (r"<<", "a merge key (<<)", "write the members out"),
    (r"[^\t\x20-\x7e\xa0-\ud7ff\ue000-\ufefe\uff00-\ufffd\U00010000-\U0010ffff]", "a character that no line may hold", "delete it: a byte order mark, a CR or another control character"),
    (r"(: +|- +)\"[^\"]*$|(: +|- +)'[^']*$", "a quote that isn't closed on its line", "close the quote"),
    (r'\\[^"\\/nt]', "an escape other than \\\" \\\\ \\/ \\n \\t", "write the character itself"),
    (r"(: +|- +)[@`%,?\]}]", "a text that begins with a mark of YAML and has no quotes", "put it in quotes"),
    (r": [^'\"]*: ", "two colons with a space behind on one line", "put the text in quotes"),
)


NO_BLANK = re.compile(r"[ -]*[\"']?(" + "|".join(masking.MEMBERS + masking.KINDS) + r")[\"']?:[^ \t\r]")
NO_COLON = re.compile(r"[ -]*(" + "|".join(masking.MEMBERS + masking.KINDS) + r")(?:[ \t][^:]*|[\r]?)$")
ENTRY = "`resources:` and `providers:` of an entry begin in one column, behind the entry's `- `"
KEY = "`name:` and `secret:` of a key begin in one column, and the first of the two has `- ` in front"
DEEPER = "it stands deeper than the name of its provider, with its siblings in one column"
# Where a member belongs, by its name.
COLUMNS = {"resources": ENTRY, "providers": ENTRY, "keys": DEEPER, "name": KEY, "secret": KEY, "endpoint": DEEPER, "timeout": DEEPER, "cachesize": DEEPER}


def yaml_finding(data, no):
    if no.second == 5:
        start = next((at for at in range(len(data)) if not is_utf8(data[: at + 4])), 0)
        return Finding(answer_of(no), data.count(b"\n", 0, start) + 1, "the text", "bytes that aren't UTF-8", "save the file as UTF-8")
    lines = data.decode().split("\n")
    line = lines[no.first - 1] if no.first <= len(lines) else ""
    told = {"where": "in " + masking.line(line), "answer": answer_of(no), "line": no.first}
    kind = configuration.YAML_KINDS[no.second - 1]
    if NO_BLANK.match(line):
        return Finding(**told, found="no blank behind the colon, so it is no key", do="put a space behind the colon")
    if re.search(r"^[^#]*:\t", line):
        return Finding(**told, found="a tab behind a colon, so it is no key", do="put a space behind the colon")
    if match := NO_COLON.match(line):
        return Finding(**told, found=f"no colon behind `{match[1]}`", do=f"write `{match[1]}:`, and a space after it")
    if kind == "Indent" and not re.search(r":( |$)|^ *- ", line.rstrip("\r")):
        return Finding(**told, found="a text that goes on from the line above", do="put the whole text on one line; `base64 -w 0` prints it so")
    if kind == "Indent":
        word = re.match(r"[ -]*([A-Za-z]*)", line)[1]
        do = COLUMNS.get(word, "line it up with its siblings: same column, spaces alone")
        return Finding(**told, found="its indentation matches no line above", do=do)
    if kind == "Deep":
        return Finding(**told, found="more than 16 levels of lists and mappings", do="is it a configuration? take levels out")
    if kind == "DuplicateKey":
        return Finding(**told, found=f"the key {masking.scalar(line.split(':')[0].strip(' -'))} stands twice in its mapping", do="delete one of the two, or begin a new item by `- `")
    for pattern, found, do in OUTSIDE:
        if re.search(pattern, line.rstrip("\r")):
            return Finding(**told, found=found, do=do)
    found = "a line that is no item `- x`, no member `key: value` and no scalar"
    return Finding(**told, found=found, do="a text over several lines goes on one line; a key wants a colon and a space")


def is_utf8(data):
    try:
        data.decode()
        return True
    except UnicodeDecodeError as error:
        # (what is only cut off is none)
        return error.reason == "unexpected end of data"


# ---- a rule of the configuration


class Placing:
    """A breach, with the tree's part that breaks the rule."""

    def __init__(self, data, tree, path, no):
        self.tree, self.path, self.no = tree, path, no
        self.lines = placed(data)[1]

    def finding(self):
        told = getattr(self, f"code_{self.no.code}")()
        path, found, do = told
        return Finding(answer_of(self.no), self.line_of(path), self.where(path), found, do)

    def line_of(self, path):
        while path not in self.lines:
            path = path[:-1]
        return self.lines[path]

    def where(self, path):
        """The place in words: entry, provider and key."""
        told = []
        if len(path) >= 2:
            told.append(f"entry {path[1]}")
        if len(path) >= 4:
            told.append(f"{'provider' if path[2] == 'providers' else 'resource'} {path[3]}")
        if len(path) >= 5:
            told.append(str(path[4]))
        if len(path) >= 7:
            key = at(self.tree, path[:7])
            name = key.get("name") if isinstance(key, dict) else None
            told.append(f"key {masking.scalar(name)}" if isinstance(name, str) else f"key {path[6]}")
        elif len(path) >= 5 and path[4] == "kms":
            name = at(self.tree, (*path[:5], "name"))
            told += [f"name {masking.scalar(name)}"] if isinstance(name, str) else []
        return ", ".join(told) or "the whole file"

    def node(self, *more):
        return at(self.tree, (*self.path, *more))

    def wanted(self, path, what, do):
        node = at(self.tree, path)
        parent = at(self.tree, path[:-1])
        is_there = path == () or (isinstance(parent, dict) and path[-1] in parent) or isinstance(parent, list)
        name = f"`{path[-1]}`" if path and isinstance(path[-1], str) else "what stands here"
        if not is_there:
            near = [key for key in parent if is_slip_of(key, str(path[-1]))] if isinstance(parent, dict) else []
            found = f"{name} is missing" + (f"; there is {masking.scalar(near[0])}, which is another key" if near else "")
            return ((*path[:-1], near[0]), found, f"write `{path[-1]}` in its place") if near else (path[:-1], found, do)
        return path, f"{name} is {kind_of(node)}, and {what} is wanted", do

    def begun(self):
        """Where the breach is: behind the last pattern, if that is in order, the entry breaks a rule."""
        return self.path[:2] if len(self.path) == 4 and self.path[2] == "resources" and isinstance(self.node(), str) else self.path

    def code_22(self):
        path = self.path = self.begun()
        if len(path) < 2:
            if not isinstance(self.tree, dict):
                return (), f"the file is {kind_of(self.tree)}, and a mapping is wanted", "begin with apiVersion, kind and resources"
            return self.wanted(("resources",), "a list of entries", "write `resources:` and entries below it")
        if len(path) == 2:
            return self.in_entry(path)
        if len(path) == 4 and path[2] == "resources":
            return self.wanted(path, "a text", "write a resource such as secrets, in quotes where it begins with *")
        return self.in_provider(path)

    def in_entry(self, path):
        if not isinstance(at(self.tree, path), dict):
            return self.wanted(path, "a mapping", "an entry has `resources:` and `providers:`")
        for name in ("resources", "providers"):
            if not isinstance(self.node(name), list):
                return self.wanted((*path, name), "a list", f"write `{name}:` and items below it")
        return path, "a part of the entry hasn't its form", "an entry has `resources:` and `providers:`"

    def in_provider(self, path):
        element = at(self.tree, path[:4])
        if not isinstance(element, dict):
            return self.wanted(path[:4], "a mapping", "a provider is `- identity: {}`, or `- aescbc:` with keys below it")
        kind = next(kind for kind in configuration.PROVIDERS if kind in element)
        if kind == "identity":
            return self.wanted((*path[:4], kind), "`{}` or nothing", "write `- identity: {}`")
        if not isinstance(element[kind], dict):
            beside = [name for name in element if name in ("keys", "apiVersion", "name", "endpoint")]
            found = self.wanted((*path[:4], kind), "a mapping", "the members stand deeper than the provider's name")
            return (found[0], f"{found[1]}: `{beside[0]}` stands beside it", f"indent `{beside[0]}:` and what belongs to it deeper than `{kind}`") if beside else found
        if kind == "kms":
            for name in ("apiVersion", "name", "endpoint"):
                if not isinstance(element[kind].get(name), str):
                    return self.wanted((*path[:5], name), "a text", f"write `{name}:` with its value, in quotes where it is a number")
        if not isinstance(element[kind].get("keys"), list):
            return self.wanted((*path[:4], kind, "keys"), "a list", "write `keys:` and `- name: ..`, `secret: ..` below it")
        if not isinstance(at(self.tree, path), dict):
            return self.wanted(path, "a mapping", "a key is `- name: key1` and `secret: ..` below it")
        for name in ("name", "secret"):
            if not isinstance(self.node(name), str):
                do = f"a secret: {NEW_SECRET}" if name == "secret" else "write `name: key1`, in quotes where it is a number"
                return self.wanted((*path, name), "a text", do)
        return path, "a part of the key hasn't its form", "a key has `name` and `secret`"

    def whole(self, name, wanted):
        path, found, do = self.wanted((name,), f"`{wanted}`", f"write `{name}: {wanted}`")
        if isinstance(self.tree.get(name), str):
            found = f"`{name}` is {masking.scalar(self.tree[name])}"
        return path, found, do

    def code_23(self):
        return self.whole("apiVersion", configuration.API_VERSION)

    def code_24(self):
        return self.whole("kind", configuration.KIND)

    def code_25(self):
        path = self.begun()
        for name in ("resources", "providers"):
            if len(path) <= 2 and at(self.tree, (*path, name)) == []:
                return (*path, name), f"`{name}` is an empty list", "put an item into it, or delete the entry"
        kind = next(kind for kind in configuration.PROVIDERS if kind in at(self.tree, path[:4]))
        return (*path[:4], kind, "keys"), "`keys` is an empty list", f"put a key into it, with a secret of {NEW_SECRET}, or delete the provider"

    def code_26(self):
        keys = ", ".join(map(masking.scalar, list(self.node())[:2])) or "nothing"
        return self.path, f"the provider is {keys}", "one of identity, aescbc, aesgcm and kms, spelled so; its members stand deeper than it"

    def code_27(self):
        kinds = [kind for kind in self.node() if kind in configuration.PROVIDERS]
        return (*self.path, kinds[1]), f"one item has {' and '.join(kinds)}", "begin each provider by `- ` of its own"

    def code_28(self):
        do = "kmsrest doesn't read it: seal what it wrote by another provider first, through the API server"
        return (*self.path, "secretbox"), "a secretbox provider", do

    def code_29(self):
        do = "write `apiVersion: v2` with a plugin of version 2; values of version 1 aren't read here"
        if "apiVersion" not in self.node():
            return self.path, "the plugin has no `apiVersion`, which is v1 to the API server", do
        return (*self.path, "apiVersion"), "`apiVersion` is `v1`", do

    def code_30(self):
        return (*self.path, "apiVersion"), f"`apiVersion` is {masking.scalar(self.node('apiVersion'))}", "write `apiVersion: v2`"

    def code_31(self):
        name = self.node("name")
        if not name:
            found = "the name is empty"
        elif len(name.encode()) > 253:
            found = f"the name has {len(name.encode())} bytes"
        elif ":" in name:
            found = f"the name {masking.scalar(name)} has a colon, which ends a name in a stored value"
        else:
            found = f"the name {masking.scalar(name)} has a space or a character beyond ASCII"
        return (*self.path, "name"), found, "a name has 1 to 253 bytes from ! to ~, none of them a colon"

    def code_32(self):
        return (*self.path, "endpoint"), f"the endpoint is {masking.endpoint(self.node('endpoint'))}", "write `endpoint: unix:///run/plugin.sock`"

    def code_33(self):
        return (*self.path, "secret"), base64_fault(self.node("secret")), f"random bytes in standard base64 with its padding, on one line, and no password: {NEW_SECRET}"

    def code_34(self):
        size = len(base64.b64decode(self.node("secret")))
        do = f"a secret has 16, 24 or 32 bytes: {NEW_SECRET}"
        if size in (17, 25, 33):
            do += " (one byte more is often a newline: printf, and not echo)"
        if re.fullmatch("(?:[0-9a-fA-F]{16})+", self.node("secret")):
            do += " (is it hex? `xxd -r -p | base64` makes base64 of that)"
        return (*self.path, "secret"), f"secret has {size} byte{'' if size == 1 else 's'}", do

    def code_35(self):
        pattern = self.node()
        do = "write `name`, `name.group`, `*.group`, `*.` (the core group) or `*.*`"
        if re.search("[ ,]", pattern):
            do = "write an item a resource, each on a line of its own behind `- `"
        elif pattern == "*":
            do = "write '*.*' for all resources"
        elif pattern.endswith(".") and "." not in pattern[:-1]:
            do = f"a resource of the core group has no dot here: {masking.shown(pattern[:-1])}"
        elif "/" in pattern:
            name, _, group = pattern.partition("/")
            do = f"a group stands behind a dot: {masking.shown(group.lower())}.{masking.shown(name.lower())}" if "." not in name else do
        elif pattern != pattern.lower():
            do = "write it small, in the plural: " + masking.shown(plural(pattern.lower()))
        return self.path, f"the resource is {masking.scalar(pattern)}", do

    def code_36(self):
        first = at(self.tree, self.path[:-1]).index(self.node())
        return self.path, f"{masking.scalar(self.node())} stands already on line {self.line_of((*self.path[:-1], first))}", "delete one of the two"

    def code_37(self):
        others = at(self.tree, self.path[:-1])[: self.path[-1]]
        first = next(place for place, other in enumerate(others) if configuration.overlap(self.node(), other))
        found = f"{masking.scalar(self.node())} overlaps {masking.scalar(others[first])} on line {self.line_of((*self.path[:-1], first))}"
        return self.path, found, "put them into two entries, the narrower one first: the first entry that matches decides"

    def code_38(self):
        element = self.node() if len(self.path) == 4 else at(self.tree, self.path[:4])
        kind = next(kind for kind in configuration.PROVIDERS if kind in element)
        name = self.node("name") if len(self.path) > 4 else ""
        first = next(path for path in providers_in(self.tree, self.path[1]) if (at(self.tree, path[:4]).keys() & {kind}) and self.name_at(path) == name)
        found = f"{kind}{':' * bool(name)}{masking.shown(name)} stands already on line {self.line_of((*first, 'name') if name else first)}"
        return ((*self.path, "name") if name else self.path), found, "give the key another name, or delete one; two keys of one name can't be told apart"

    def name_at(self, path):
        return at(self.tree, (*path, "name")) or ""

    def code_39(self):
        name, most = configuration.LIMITS[self.no.first]
        what = {"entries": "entries", "patterns": "resources over all entries", "keys": "keys over all entries", "kms": "kms providers over all entries"}[name]
        path = ("resources", most) if name == "entries" else self.path
        return path, f"here are more than {most} {what}", "take some out; a list can serve several resources"


def providers_in(tree, entry):
    """The paths of an entry's providers, in order: of identity and kms the element's, of keys each one's."""
    for place, element in enumerate(at(tree, ("resources", entry, "providers"))):
        path = ("resources", entry, "providers", place)
        kind = next((kind for kind in configuration.PROVIDERS if isinstance(element, dict) and kind in element), None)
        if kind in ("aescbc", "aesgcm"):
            for number in range(len(element[kind]["keys"])):
                yield (*path, kind, "keys", number)
        elif kind == "kms":
            yield (*path, kind)
        elif kind:
            yield path


def plural(word):
    """A resource's name as lists have it, where the plural is one that is known."""
    return next((other for other in (word + "s", word + "es", word[:-1] + "ies") if other in masking.RESOURCES), word)


def base64_fault(secret):
    """Why a secret isn't strict standard base64, without telling it."""
    if not secret:
        return "the secret is empty"
    if re.search(r"[<>]", secret):
        return "the secret is a placeholder in < and >"
    if re.search(r"\s", secret):
        return "the secret has a blank or a newline in it"
    if re.search(r"[-_]", secret):
        return "the secret has - or _: base64 for URLs, where standard base64 has + and /"
    bad = re.search(r"[^A-Za-z0-9+/=]", secret)
    if bad:
        return f"character {bad.start() + 1} of the secret is none of base64"
    if len(secret) % 4:
        return f"the secret has {len(secret)} characters, which isn't a multiple of 4: its padding `=` or its end is missing"
    return "the secret ends in bits that no bytes have: its last characters were changed or cut"
