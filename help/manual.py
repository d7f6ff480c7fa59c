"""The man pages: of kmsrest from its table of commands, of each bridge from its own words."""
import re

from commands import COMMANDS, OPTIONS, OWN_WORDS, STATUSES
from programs import Program

ABOUT = (
    "kmsrest reads and writes the values that a Kubernetes API server stores in etcd, by its EncryptionConfiguration. "
    "It says whether an API server can safely switch to another configuration now, and re-encrypts what is stored."
)
ENVIRONMENT = {
    "KMSREST_DRAFT": "1: calls use the draft that --draft built, and build nothing",
    "KMSREST_EXPLAIN": "1: explain a failed call below its own line; 0: never; otherwise only on a terminal",
    "TMPDIR": "where a build puts its log and its copy of the sources, and demo its folder",
}


def roff(text):
    """Plain text as the page's source has it."""
    text = text.replace("\\", "\\e").replace("-", "\\-").replace("`", "")
    return "\\&" + text if text.startswith((".", "'")) else text


def tagged(rows):
    return [line for front, behind in rows for line in (".TP", f".B {roff(front)}", roff(behind))]


def head(name, summary, version):
    return [f'.TH {name.upper()} 1 "" "kmsrest {version}" "User Commands"', ".SH NAME", f"{roff(name)} \\- {roff(summary)}"]


def kmsrest_page(version, usage):
    """The page of kmsrest; `usage` makes the usage lines of a command."""
    lines = head("kmsrest", "seal, read and rewrite what the API server stores", version)
    lines += [".SH SYNOPSIS", ".B kmsrest", "COMMAND [\\-\\-OPTION VALUE]..", ".SH DESCRIPTION", roff(ABOUT), ".SH COMMANDS"]
    for command in COMMANDS:
        lines += [f".SS {command.name}", roff(command.summary[:1].upper() + command.summary[1:]) + ".", ".PP", ".nf"]
        lines += [roff(line) for line in usage(command)] + [".fi"]
        lines += tagged([("reads", command.reads), ("writes", command.writes), ("answers", command.answers)])
        lines += [".PP", roff(command.notes)] if command.notes else []
    lines += [".SH OPTIONS", *tagged([(f"--{name} {value}", text) for name, (value, text) in OPTIONS.items()])]
    lines += [".SH WORDS OF THE SCRIPT", *tagged(list(OWN_WORDS.items()))]
    lines += [".SH EXIT STATUS", *tagged([(str(status), text) for status, text in STATUSES.items()])]
    lines += [".SH ENVIRONMENT", *tagged(list(ENVIRONMENT.items()))]
    lines += [".SH EXAMPLES"]
    for command in COMMANDS[:1] + COMMANDS[7:8]:
        lines += [".PP", ".nf", *map(roff, command.example), ".fi"]
    lines += [".SH SEE ALSO", roff("README.md, docs/OPERATORS.md and docs/FORMATS.md beside the program; explain says what a line means.")]
    return "\n".join(lines) + "\n"


def sentence(text):
    """A text that begins and ends as a sentence does."""
    text = text[:1].upper() + text[1:]
    return text if not text or text.endswith((".", "!", "?")) else text + "."


def value_of(option):
    """What stands behind an option, as a usage line has it."""
    value = f"{option.name} {option.value}".strip()
    return f"{value}, .." if option.repeats else value


def program_page(program: Program, version):
    """The page of a bridge. What its words end with tells of its environment and of its statuses."""
    lines = head(program.name, program.summary, version)
    lines += [".SH SYNOPSIS", f".B {roff(program.name)}", roff(program.usage)]
    lines += [".SH DESCRIPTION", roff(sentence(program.about or program.summary))]
    for title, options in (("ARGUMENTS", program.arguments), ("OPTIONS", program.options)):
        lines += [f".SH {title}", *tagged([(value_of(option), sentence(option.text)) for option in options])] if options else []
    lines += [".SH ENVIRONMENT AND EXIT STATUS"]
    lines += [line for part in re.split(r"(?=\bStatus: )", program.notes) if part for line in (".PP", roff(sentence(part.strip())))]
    documents = "docs/OPERATORS.md and docs/BRIDGES.md of kmsrest; kmsrest explain says what its lines mean."
    lines += [".SH SEE ALSO", "kmsrest(1)", ".PP", roff(documents)]
    return "\n".join(lines) + "\n"
