"""The YAML profile of configurations. A tree is None, a text, a list, or a dict of texts to trees."""

import re

LEVELS = 16
INDICATORS = "?:,[]{}#&*!|>'\"%@`"
ESCAPES = {'"': '"', "\\": "\\", "/": "/", "n": "\n", "t": "\t"}
ALLOWED = re.compile("[\t\x20-\x7e\u00a0-\u2027\u202a-\ud7ff\ue000-\ufefe\uff00-\ufffd\U00010000-\U0010ffff]*")
DASH = re.compile("- +")
# on one line the first of these decides
ORDER = ("Indent", "DuplicateKey", "Deep")


class YamlNo(Exception):
    def __init__(self, kind, line):
        super().__init__(kind, line)
        self.kind, self.line = kind, line


class NoTokens(Exception):
    """A line can't be read as tokens."""


class Scalar(str):
    """A scalar's text; `written` is how it stands in the file, with quotes and escapes."""

    written = ""


# ---- scalars


def scalar(text, written):
    made = Scalar(text)
    made.written = written
    return made


def quoted(text):
    """A quoted scalar at the begin of the text, and what stands behind it."""
    if text[0] == "'":
        found = re.match(r"'((?:[^']|'')*)'(?!')", text)
        if not found:
            raise NoTokens
        return scalar(found[1].replace("''", "'"), found[0]), text[found.end() :]
    found = re.match(r'"((?:[^"\\]|\\.)*)"', text)
    if not found:
        raise NoTokens

    def escaped(it):
        if it[1] not in ESCAPES:
            raise NoTokens
        return ESCAPES[it[1]]

    return scalar(re.sub(r"\\(.)", escaped, found[1]), found[0]), text[found.end() :]


def plain(text, barred=""):
    if not text.strip(" \t") or text[0] in INDICATORS or text.startswith("- ") or ": " in text or text.endswith(":"):
        raise NoTokens
    if any(mark in text for mark in barred):
        raise NoTokens
    return text


def valued(text):
    """The node of a plain scalar."""
    return None if text in ("null", "~") else scalar(text, text)


def flow_list(text):
    """A flow list of at least one scalar."""
    items, rest = [], text[1:]
    while True:
        rest = rest.lstrip(" ")
        if rest[:1] in ("'", '"') and rest:
            item, rest = quoted(rest)
            rest = rest.lstrip(" ")
        else:
            end = next((at for at, mark in enumerate(rest) if mark in ",[]{}"), len(rest))
            item, rest = valued(plain(rest[:end].rstrip(" "))), rest[end:]
        items.append(item)
        if rest == "]":
            return items
        if not rest.startswith(","):
            raise NoTokens
        rest = rest[1:]


def scalar_or_flow(text):
    if text[0] in "'\"":
        item, rest = quoted(text)
        if rest:
            raise NoTokens
        return item
    if text == "{}":
        return {}
    if text == "[]":
        return []
    if text[0] == "[":
        return flow_list(text)
    return valued(plain(text))


# ---- lines


def comment_at(line):
    """Where the comment of a line begins, or its length."""
    at = len(line) - len(line.lstrip(" "))
    opens, in_flow = True, False
    while at < len(line):
        mark = line[at]
        if mark == "#" and (at == 0 or line[at - 1] == " " or not line[:at].strip(" ")):
            return at
        if opens and mark in "'\"":
            try:
                _, rest = quoted(line[at:])
            except NoTokens:
                # a wrong escape ends the scalar as well; an open quote goes on to the line's end
                found = re.match(r'"(?:[^"\\]|\\.)*"', line[at:])
                if not found:
                    return len(line)
                rest = line[at + found.end() :]
            at, opens = len(line) - len(rest), False
            continue
        if opens and mark == "-" and line[at + 1 : at + 2] == " ":
            at += 1
        elif opens and mark == "[":
            in_flow = True
        elif in_flow and mark == ",":
            opens = True
        elif mark == ":" and line[at + 1 : at + 2] == " ":
            opens = True
        elif mark != " ":
            opens = False
        at += 1
    return len(line)


def tokens_of(content, column):
    """The tokens of a content: triples of a column, what it is, and a member's key and value or a node."""
    found, at = [], 0
    while dash := DASH.match(content, at):
        found.append((column + at, "item", None))
        at = dash.end()
    found.append((column + at, *last_token(content[at:])))
    return found


def last_token(content):
    """The token of a content that is no item with a rest."""
    if content == "-":
        return "item", None
    key, behind = None, None
    if content[0] in "'\"":
        key, behind = quoted(content)
        if behind == "":
            return "node", key
        if behind != ":" and not behind.startswith(": "):
            raise NoTokens
    elif content[0] not in "[{":
        end = content.find(": ")
        if end < 0 and content.endswith(":"):
            end = len(content) - 1
        if end >= 0:
            key, behind = scalar(plain(content[:end]), content[:end]), content[end:]
            if key.rstrip(" ") == "<<":
                raise NoTokens
    if key is None:
        return "node", scalar_or_flow(content)
    value = behind[1:].lstrip(" ")
    return "member", ((key, scalar_or_flow(value)) if value else (key,))


def all_tokens(text):
    """The tokens of the text with the numbers of their lines."""
    found, is_first = [], True
    lines = text.split("\n")
    for number, line in enumerate(lines, 1):
        # a CR ends a line only with the LF behind it
        line = line[:-1] if number < len(lines) and line.endswith("\r") else line
        try:
            if not ALLOWED.fullmatch(line) or "\t" in re.match(r"[ \t]*", line)[0]:
                raise NoTokens
            line = line[: comment_at(line)].rstrip(" ")
            if not line:
                continue
            first, is_first = is_first, False
            if line == "---" and first:
                continue
            if line in ("---", "...") and not first or re.match(r"(---|\.\.\.)[ \t]", line):
                raise NoTokens
            content = line.lstrip(" ")
            found += [(number, *token) for token in tokens_of(content, len(line) - len(content))]
        except NoTokens:
            raise YamlNo("Outside", number) from None
    return found


# ---- the tree


class Frame:
    """An open list or mapping."""

    def __init__(self, kind, column, whole):
        self.kind, self.column, self.whole = kind, column, whole
        # whether what was begun last waits for its node, and under which key
        self.waits, self.key = False, None

    def hang(self, node):
        """Puts the node where one is waited for."""
        if self.kind == "item":
            self.whole[-1] = node
        elif self.key is not None:
            self.whole[self.key] = node
        self.waits = False


class Builder:
    def __init__(self):
        self.frames, self.root, self.is_begun = [], None, False
        self.breaches = []

    def begin(self, node):
        """Begins a node where one is waited for."""
        if self.frames:
            self.frames[-1].hang(node)
        else:
            self.root, self.is_begun = node, True

    def waits_for(self, column, kind):
        if not self.frames:
            return not self.is_begun
        top = self.frames[-1]
        return top.waits and (column > top.column or (top.kind == "member" and kind == "item" and column == top.column))

    def take(self, line, column, kind, what):
        """Takes a token; answers whether it can go on."""
        if self.waits_for(column, kind):
            if kind == "node":
                self.begin(what)
                return True
            whole = [] if kind == "item" else {}
            self.begin(whole)
            self.frames.append(Frame(kind, column, whole))
            if len(self.frames) > LEVELS:
                self.breaches.append((line, "Deep"))
        else:
            while self.frames and (self.frames[-1].kind, self.frames[-1].column) != (kind, column) and self.frames[-1].column >= column:
                self.frames.pop()
            if not self.frames or (self.frames[-1].kind, self.frames[-1].column) != (kind, column):
                self.breaches.append((line, "Indent"))
                return False
        self.put(line, what)
        return True

    def put(self, line, what):
        """Puts an item or a member into the last frame."""
        top = self.frames[-1]
        if top.kind == "item":
            top.whole.append(None)
            top.waits = True
            return
        key = what[0]
        if key in top.whole:
            self.breaches.append((line, "DuplicateKey"))
            top.key, top.waits = None, len(what) == 1
            return
        top.key, top.waits = key, len(what) == 1
        top.whole[key] = None if top.waits else what[1]


def read(text):
    """The tree of the text. The least line of a breach decides."""
    builder = Builder()
    for line, column, kind, what in all_tokens(text):
        if builder.breaches and builder.breaches[0][0] < line:
            break
        if not builder.take(line, column, kind, what):
            break
    if builder.breaches:
        line, kind = min(builder.breaches, key=lambda it: (it[0], ORDER.index(it[1])))
        raise YamlNo(kind, line)
    return builder.root
