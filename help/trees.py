"""Trees of configurations with the lines on which their parts stand: what is at ("resources", 0, "providers") stands on which line."""

import json
import re

from reference import yaml_profile

TOKEN = re.compile(r'"(?:[^"\\]|\\.)*"|[{}\[\],:]|[^\s{}\[\],:"]+')


class Placed(yaml_profile.Builder):
    """Notes the line of each part as the tree is built."""

    def __init__(self):
        super().__init__()
        self.lines, self.line, self.path = {(): 1}, 1, ()

    def take(self, line, column, kind, what):
        self.line = line
        return super().take(line, column, kind, what)

    def begin(self, node):
        if self.frames:
            top = self.frames[-1]
            self.path = (*top.path, len(top.whole) - 1 if top.kind == "item" else top.key)
        else:
            self.path = ()
        super().begin(node)

    def put(self, line, what):
        top = self.frames[-1]
        if not hasattr(top, "path"):
            top.path = self.path
        super().put(line, what)
        part = len(top.whole) - 1 if top.kind == "item" else what[0]
        self.lines.setdefault((*top.path, part), line)


def yaml_lines(text):
    builder = Placed()
    for token in yaml_profile.all_tokens(text):
        if not builder.take(*token):
            break
    return builder.root, builder.lines


class Open:
    """An open list or object of a JSON text: its path, and the part that comes next, a number or a key."""

    def __init__(self, path, is_list):
        self.path, self.is_list, self.part = path, is_list, 0 if is_list else None


def json_lines(text):
    """The lines of the parts of a JSON text that is in form."""
    lines, stack, line, at = {(): 1}, [], 1, 0
    for found in TOKEN.finditer(text):
        line, at, word = line + text.count("\n", at, found.start()), found.start(), found[0]
        top = stack[-1] if stack else None
        if word in "]}":
            stack.pop()
        elif word == ",":
            top.part = top.part + 1 if top.is_list else None
        elif word == ":":
            pass
        elif top and top.part is None:
            top.part = json.loads(word)
            lines[(*top.path, top.part)] = line
        else:
            path = (*top.path, top.part) if top else ()
            lines.setdefault(path, line)
            if word in "[{":
                stack.append(Open(path, word == "["))
    return json.loads(text), lines


def placed(data):
    """The tree of a configuration that can be read, and the lines of its parts."""
    text = data.decode()
    return json_lines(text) if text.lstrip(" \t\r\n")[:1] == "{" else yaml_lines(text)
