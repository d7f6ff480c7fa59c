"""The commands and their options, as one table: `help/write` makes the help texts, the man page and the completion of it."""

# What stands for an option's value, and what the option says. A value's word tells the completion what to offer.
OPTIONS = {
    "config": ("FILE", "the EncryptionConfiguration, in YAML or JSON, as the API server has it"),
    "file": ("FILE", "the fleet file: replicas, and what workers do at them"),
    "files": ("FOLDER", "also write the three configurations of the moves into this folder, ready for the API servers; ./kmsrest does it"),
    "from": ("FILE", "the configuration that all API servers have"),
    "limit": ("NUMBER", "the most objects on a page, 1 to 10000"),
    "path": ("PATH", "the object's key in etcd, such as /registry/secrets/default/db; aesgcm and kms bind a value to it"),
    "plugin": ("NAME=PROGRAM", "the program that answers for the KMS plugin NAME; once for each plugin"),
    "reload": ("N=FILE", "the configuration that API server N, counted from 0, is to read next"),
    "replica": ("FILE", "the configuration that an API server has now; once for each API server, the first is number 0; at most 16"),
    "replicas": ("NUMBER", "how many API servers there are, 1 to 16"),
    "resource": ("RESOURCE", "the resource in the plural, with its group: secrets, deployments.apps"),
    "seed": ("NUMBER", "the load to make, at most 18446744073709551615; with another size it repeats nonces"),
    "since": ("REVISION", "print the changes after this revision instead of the objects"),
    "size": ("NUMBER", "how many objects each of the four workers writes, 1 to 10000"),
    "show": ("WORD", "wide or turned: print that configuration instead of the moves"),
    "store": ("FILE", "the store file"),
    "to": ("FILE", "the store file to write; it must be absent or empty"),
}

REPEATED = ("plugin", "replica")
# Options that the front end does, and the program itself hasn't.
OF_FRONT_END = {"plan": ("files",)}

# The words of the script at the top; of these `--build`, `--draft` and `demo` alone build anything.
OWN_WORDS = {
    "help [COMMAND]": "this page, or a command's; the same as no words, -h, --help, and COMMAND --help",
    "--version": "the version",
    "explain 'LINE' [WORD..]": "what a line that kmsrest or a bridge printed means for the call with these words, and what to do",
    "vet BASE NEW [--OPTION VALUE]..": "may this change to a configuration be merged? For a pull request, without a cluster",
    "demo [--etcd]": "exchange a key in a temporary folder and explain each step; builds a draft if nothing is built",
    "--draft [WORD..]": "build an unproved program, in some three minutes, if there is no current one; then run the words with it",
    "--build [WORD..]": "prove and build the program if it isn't current, then run the words",
    "recover STORE NEW": "copy the rows before a store's breach into a new store, and say path by path what came after it",
}


# A page for each of them, by its name without dashes: a usage line, what it says, and an example.
OWN_PAGES = {
    "help": (
        "kmsrest help [COMMAND]",
        "Shows the commands, or one of them with its options, what it reads, writes and answers, and an example. No words, -h and --help show the "
        "commands; COMMAND --help and COMMAND -h show a command's page. None of these builds anything.",
        ("./kmsrest help judge", "./kmsrest judge --help"),
    ),
    "version": ("kmsrest --version", "The version, as the file VERSION has it.", ("./kmsrest --version",)),
    "demo": (
        "kmsrest demo [--etcd]",
        "Exchanges a key on two API servers, in a temporary folder: it stores objects, shows a wrong reload that is refused, judges and makes the moves of a plan, "
        "and re-encrypts and verifies everything. It prints each command, its output, and what that means. With --etcd the objects are in an etcd of its own on "
        "loopback, and the bridges take them to a store and back; `etcd` and `etcdctl` must be on the path. If nothing is built it first builds a draft, as --draft "
        "does, and says so.",
        ("./kmsrest demo",),
    ),
    "draft": (
        "kmsrest --draft [WORD..]",
        "Builds a draft of the current sources if there is none, and then runs the words with it. A draft is the same program without its proofs. "
        "Nothing is proved about it, its run-time checks stay in, and it is slower. Building takes some three minutes of one processor. The draft is in "
        "out/draft, and no other call takes it for the program; with KMSREST_DRAFT=1 calls without --draft use one that is there. On a terminal each call of a "
        "draft prints `draft: not proved` on standard error. If the first word names another program's crate, such as kmsplug or test_judge, that program is "
        "drafted and called. It needs the kit's `rt` on the path (README.md, 'Get it').",
        ("./kmsrest --draft check --config examples/identity.yaml", "./kmsrest --draft kmsplug <crates/kmsplug/stdin"),
    ),
    "build": (
        "kmsrest --build [WORD..]",
        "Proves and builds the program if it isn't current, and then runs the words. From nothing that takes some 40 minutes on four processors. "
        "It needs the kit's `rt` on the path (README.md, 'Get it'). The program is current if the sums of the sources, kept beside it, are those of the sources now. "
        "After a build by the gate, file times decide until the first call, which writes these sums.",
        ("./kmsrest --build check --config examples/identity.yaml",),
    ),
    "explain": (
        "kmsrest explain 'LINE' [WORD..]",
        "Says what a line means that kmsrest or a bridge printed, on either stream, and what to do. Add the words of that call, and it looks at the "
        "files that they name: the line in a configuration, the row in a store, the file of an API server. It only reads, and shows places, "
        "names and known words of a file, and no secret. It ends with 2 if it doesn't know the line. A bridge's call begins with the bridge's name. "
        "On a terminal a failed call explains itself this way, below its own line; with KMSREST_EXPLAIN=1 it does so everywhere, with KMSREST_EXPLAIN=0 nowhere.",
        (
            "./kmsrest explain 'drops-writer 1 secrets aescbc:key1' judge --replica new.yaml --replica both.yaml",
            "./kmsrest explain 'changed 2' bridges/store-to-etcd",
        ),
    ),
    "vet": (
        "kmsrest vet BASE NEW [--replicas N] [--kubernetes 1.NN] [--output text|json|github] [--strict] [--allow CODE].. [--as FILE]",
        "May this change of an EncryptionConfiguration be merged, from BASE, which all API servers have, to NEW? It judges the reloads one after another for "
        "N API servers (3), without knowing what is stored, and if one is refused it shows the steps in between. It names what an API server of that version "
        "refuses in NEW or reads differently from `check`, and what is allowed but dangerous. It needs no build, no cluster and no etcd, and shows no secret. "
        "An empty BASE, such as /dev/null, stands for API servers without a configuration. --allow silences the warnings of a code, --as is the name to print for NEW. "
        "It ends with 0: go on; 1: refused; 2: the words; 3: a warning with --strict. FORMATS, 'What vet finds', has the codes. bridges/kmsrest-vet is the same.",
        ("cd examples/rotation", "../../kmsrest vet old.yaml new.yaml"),
    ),
    "recover": (
        "kmsrest recover STORE NEW",
        "For a store that breaks its format (text 42, 43 or 46), as after a loss of power, and that has no other copy; import a store that came from etcd again. "
        "It copies the rows before the breach into the store NEW, which must not exist and which only you can read, and leaves STORE as it is. "
        "It prints the breach, and for each path with a row after it the last such row: its revision, resource and provider, whether it is whole or cut, "
        "and the revision of the path that NEW keeps. It shows no values. Rows have no checksum: a row that lost its inside may look whole, so verify NEW. "
        "It ends with 0; 1 if the store is whole, and then nothing is written; 2 for wrong words; 3 if there is no row to recover; 4 if a file fails.",
        ("./kmsrest recover store recovered",),
    ),
}


class Command:
    """`texts` has the options that this command means otherwise than OPTIONS."""

    def __init__(self, name, summary, required, further, *, reads, writes, answers, notes="", example=(), texts=None):
        self.name, self.summary, self.required, self.further = name, summary, required, further
        self.reads, self.writes, self.answers, self.notes, self.example = reads, writes, answers, notes, example
        self.texts = {option: (texts or {}).get(option, OPTIONS.get(option)) for option in required + further}

    def words(self):
        """The words of a call, as a usage line has them."""
        told = [self.name]
        for option in self.required + self.further:
            word = f"--{option} {self.texts[option][0]}"
            if option in self.further:
                told.append(f"[{word}]" + (".." if option in REPEATED else ""))
            else:
                told.append(word + (f" [{word}].." if option in REPEATED else ""))
        return " ".join(told)


AT_SECRETS = "--resource secrets --path /registry/secrets/d/s"

COMMANDS = [
    Command(
        "check",
        "what a configuration says, or the first rule that it breaks",
        ("config",),
        ("resource",),
        reads="the configuration",
        writes="nothing",
        answers="a line for each entry with its resources and providers; with --resource the providers of that resource, the writer first",
        example=("./kmsrest check --config examples/three-entries.yaml --resource deployments.apps", "aesgcm:key1", "identity"),
    ),
    Command(
        "encrypt",
        "seal a value as the API server would store it",
        ("config", "resource", "path"),
        ("plugin",),
        reads="the configuration, and the data from standard input",
        writes="nothing",
        answers="the stored value on standard output, as bytes",
        notes="The first provider of the resource writes the value.",
        example=(f"printf hello | ./kmsrest encrypt --config examples/identity.yaml {AT_SECRETS}", "hello"),
    ),
    Command(
        "decrypt",
        "read a stored value",
        ("config", "resource", "path"),
        ("plugin",),
        reads="the configuration, and the value from standard input, byte for byte",
        writes="nothing",
        answers="the data on standard output; `fresh` or `stale` on standard error, which is no failure",
        notes="`stale`: the API server would write the value with another provider or key today.",
        example=(f"./kmsrest decrypt --config examples/three-entries.yaml {AT_SECRETS} <value",),
    ),
    Command(
        "inspect",
        "who wrote a stored value, without any key",
        (),
        (),
        reads="the value from standard input",
        writes="nothing",
        answers="the provider, the key's name and the length; for a KMS value also the key id, annotations and lengths",
        example=("./kmsrest inspect <value",),
    ),
    Command(
        "put",
        "seal data and add them to a store file",
        ("config", "store", "resource", "path"),
        ("plugin",),
        reads="the configuration, the data from standard input, the store",
        writes="one row to the store, which is made if it is absent",
        answers="`revision N`",
        example=("printf hi | ./kmsrest put --config examples/identity.yaml --store /tmp/store --resource secrets --path /s", "revision 1"),
    ),
    Command(
        "get",
        "read an object of a store file",
        ("config", "store", "path"),
        ("plugin",),
        reads="the configuration and the store",
        writes="nothing",
        answers="the data on standard output; `fresh` or `stale` on standard error, which is no failure",
        example=("./kmsrest get --config examples/identity.yaml --store /tmp/store --path /s",),
    ),
    Command(
        "verify",
        "can this configuration read all of a store file, and would it write it the same way today?",
        ("config", "store"),
        ("plugin",),
        reads="the configuration and the store",
        writes="nothing",
        answers="REVISION RESOURCE PATH WORD for each object, where WORD is `fresh`, `stale` or `refused N NAME`; then how many of each; status 1 if some are refused",
        notes="It reads each value as `get` does, and prints no data. Before you remove an old key, run it with a configuration without that key.",
        example=(
            "./kmsrest verify --config examples/identity.yaml --store /tmp/store",
            "1 secrets /s fresh",
            "fresh 1",
            "stale 0",
            "refused 0",
        ),
    ),
    Command(
        "list",
        "the objects of a store file and who wrote each, without any key",
        ("store",),
        (),
        reads="the store",
        writes="nothing",
        answers="REVISION RESOURCE PATH TAG for each object; `plain` means that it is stored in the clear",
        example=("./kmsrest list --store /tmp/store", "1 secrets /s plain"),
    ),
    Command(
        "judge",
        "may an API server read another configuration now?",
        ("store", "replica", "reload"),
        (),
        reads="the store, the configurations of all API servers, and the new one",
        writes="nothing",
        answers="`pass`, or the first reason against it with status 1",
        notes="A key is its name and its secret. `judge` opens no value: only the row's check shows which secret sealed it.",
        example=(
            "cd examples/rotation",
            "../../kmsrest judge --store /tmp/store --replica new.yaml --replica both.yaml --reload 0=last.yaml",
            "drops-writer 1 secrets aescbc:key1",
        ),
    ),
    Command(
        "plan",
        "the moves that bring all API servers from one configuration to another",
        ("from", "to", "replicas"),
        ("show", "files"),
        reads="both configurations",
        writes="nothing; with --files 1-wide.yaml, 2-turned.yaml and 3-to.yaml, which only you can read; it overwrites nothing",
        answers="`reload R wide` for each API server, `reload R turned` for each, `rewrite`, `reload R to` for each; with --show a configuration; with --files also the files' names",
        notes="wide reads both and writes as --from does; turned reads both and writes as --to does. The rewrite must leave nothing. "
        "The files of --files keep each KMS plugin's endpoint, timeout and cachesize, and say at the top which step each is; "
        "a plugin for which the two given files differ is refused. --show prints `unix:///NAME` instead of an endpoint.",
        example=(
            "cd examples/rotation",
            "../../kmsrest plan --from old.yaml --to last.yaml --replicas 2",
            "reload 0 wide",
            "reload 1 wide",
            "reload 0 turned",
            "reload 1 turned",
            "rewrite",
            "reload 0 to",
            "reload 1 to",
        ),
        texts={"to": ("FILE", "the configuration that all API servers are to have")},
    ),
    Command(
        "rewrite",
        "re-encrypt each object that the configuration would write differently today",
        ("config", "store"),
        ("plugin",),
        reads="the configuration and the store",
        writes="a row for each stale object to the store",
        answers="`rewritten N`, `fresh N`, `changed N`, `left N`; status 1 if some are left because they can't be read or sealed",
        example=("./kmsrest rewrite --config examples/rotation/new.yaml --store /tmp/store",),
    ),
    Command(
        "migrate",
        "copy a store of the first format into a new one of the second, with checks",
        ("config", "store", "to"),
        (),
        reads="the configuration and the store",
        writes="the rows to the file of --to",
        answers="`migrated N`",
        notes="The checks come from the configuration's secrets; no value is opened. With the wrong file the checks are wrong, and judge believes them.",
        example=("./kmsrest migrate --config old.yaml --store store1 --to store2",),
    ),
    Command(
        "fleet",
        "several API servers over one store: their reloads, reads, writes and rewrites",
        ("file", "store"),
        ("plugin",),
        reads="the fleet file, the configurations that it names, from the current folder, and the store",
        writes="the rows to the store, which is made if it is absent",
        answers="the journal of everything that was done, and each line's reply",
        example=("cd examples/fleet", "../../kmsrest fleet --file rollout --store /tmp/fleet-store"),
    ),
    Command(
        "watch",
        "what a watch cache that follows a fleet shows: its objects in pages, or the changes since a revision",
        ("file", "store", "resource", "limit"),
        ("plugin", "since"),
        reads="the fleet file, the configurations that it names, from the current folder, and the store",
        writes="the rows to the store, which is made if it is absent",
        answers="`page N` and REVISION PATH B64 for each object, or `change REVISION KIND PATH` for each change, and `end`; or `gone OLDEST` or `ahead NEWEST`, with status 1 instead of 0",
        notes="It keeps the last 1,000 changes. If a value couldn't be read, `?` stands for its data. Run it over a copy of the store: the fleet writes.",
        example=("cd examples/fleet", "../../kmsrest watch --file rollout --store /tmp/fleet-store --resource secrets --limit 500"),
    ),
    Command(
        "gen",
        "run a load made from a seed and a size, and print its summary",
        ("seed", "size", "store"),
        (),
        reads="the store",
        writes="the load's rows to the store, which is made if it is absent",
        answers="how many puts and gets were done, and a digest of what was read",
        notes="Keys and nonces come from the seed, so that a load can be repeated. One seed with another size uses a key's nonces again "
        "for other data: use a load's keys for nothing else, and don't treat its stores as secret.",
        example=("./kmsrest gen --seed 1 --size 2 --store /tmp/load-store", "gen 1 2", "puts 8", "gets 8"),
    ),
]

STATUSES = {
    0: "done",
    1: "the answer is no: a value is refused or absent, a verdict isn't `pass`, objects are left, a watch's revision is gone or ahead",
    2: "wrong words: they mean no command",
    3: "a file is absent, or its content breaks a rule",
    4: "a file, a stream, the store or a plugin failed",
    5: "out of memory",
    6: "a limit is passed",
    70: "the script: the program isn't built, or is older than its sources, or couldn't be built",
}
