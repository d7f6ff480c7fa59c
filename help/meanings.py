"""What is said of a line where nothing can be looked at: the meaning of each code, refusal, fault and limit, and what to do."""

CODES = {
    20: ("a configuration begins as JSON and can't be read as JSON", "check it with a JSON reader; with the call's words, explain names the line"),
    21: ("a configuration isn't YAML of the profile (FORMATS, 'The YAML profile'); the numbers are the line and the kind of fault", "mend the line"),
    22: ("a named value of a configuration is missing, or has the wrong form", "give each provider its members"),
    23: ("`apiVersion` isn't apiserver.config.k8s.io/v1", "write `apiVersion: apiserver.config.k8s.io/v1`"),
    24: ("`kind` isn't EncryptionConfiguration", "write `kind: EncryptionConfiguration`"),
    25: ("a list is empty", "put an item into it"),
    26: ("a provider is none of identity, aescbc, aesgcm, kms", "look at its spelling and its indentation"),
    27: ("one item has two providers", "begin each provider with its own `- `"),
    28: ("a provider is secretbox, which isn't read here", "seal its values by another provider first"),
    29: ("a kms provider is of version 1", "write `apiVersion: v2` with a plugin of version 2"),
    30: ("a kms provider is of another version than v2", "write `apiVersion: v2`"),
    31: ("a name of a key or a plugin breaks the rule", "1 to 253 bytes from ! to ~, none of them a colon"),
    32: ("an endpoint doesn't begin unix://", "write `endpoint: unix:///run/plugin.sock`"),
    33: ("a secret isn't standard base64", "head -c 32 /dev/urandom | base64"),
    34: ("a secret hasn't 16, 24 or 32 bytes", "head -c 32 /dev/urandom | base64"),
    35: ("a resource of an entry is no pattern", "`name`, `name.group`, `*.group`, `*.` or `*.*`"),
    36: ("a resource stands twice in an entry", "delete one of the two"),
    37: ("two resources of an entry overlap", "put them into two entries, the narrower one first"),
    38: ("two providers of an entry have one kind and one name", "give a key another name, or delete one"),
    40: ("a named file isn't there", "names start from the current folder"),
    41: ("the store's first bytes are those of no store", "is it another file? A store begins KRSTORE1 or KRSTORE2"),
    42: ("the store ends in the middle of a row: a program was killed while it wrote, or the file was cut", "a store that came from etcd: remove it and its map, and import again; another one: kmsrest recover FILE NEW keeps the rows before it"),
    43: ("the store has a row that breaks its format, as after a loss of power", "restore it from a copy; all rows before that byte are whole"),
    44: ("a configuration names a KMS plugin that has no program here", "add --plugin NAME=PROGRAM"),
    45: ("a plugin reports that it isn't healthy: its version isn't v2, its healthz isn't ok, or its key_id is empty or too long", "look at the plugin and its key service"),
    46: ("the store has a row of another revision than its place: rows are missing, as after a loss of power, or two files were joined", "restore it from a copy"),
    47: ("a line of the fleet file isn't allowed where it is", "FORMATS, 'The fleet file', has the lines"),
    48: ("no provider of the first configuration reads what is stored at the path", "use the configuration that the API servers have, with the key that wrote it"),
    49: ("the configurations of the API servers don't go together", "give each the configuration that it really has"),
    51: ("what is stored at the path was sealed with another secret of the same name", "use the file with that secret; two secrets of one name are two keys"),
    52: ("the store that migrate is to write isn't empty", "name a file that isn't there, or remove this one"),
    53: ("the store is of the second format already", "there is nothing to do"),
}

REFUSALS = {
    1: ("the value is too short", ("it was cut: copied by hand, or through a shell variable, which drops zero bytes", "it is its prefix alone")),
    2: ("the body isn't whole blocks of 16 bytes", ("an extra newline: `etcdctl get --print-value-only` adds one: | head -c -1", "the value was cut, or went through a text tool")),
    3: ("the padding is wrong", ("another secret under the key's name: compare the files of all API servers", "the value was changed")),
    4: ("the tag is wrong", ("another path: it is etcd's whole key, /registry/secrets/NAMESPACE/NAME, with the server's --etcd-prefix", "another secret under the key's name", "one newline more, from `etcdctl get --print-value-only`: | head -c -1", "the value was changed")),
    5: ("the encrypted object breaks its format at that byte", ("an extra newline: `etcdctl get --print-value-only` adds one: | head -c -1", "the value was cut, or went through a text tool")),
    6: ("the key id is empty or longer than 1,024 bytes", ("the plugin that wrote it broke the limits of KMS v2",)),
    7: ("the wrapped source is empty or longer than 1,024 bytes", ("the plugin that wrote it broke the limits of KMS v2",)),
    8: ("the annotations are more than 256, or longer than 32,768 bytes", ("the plugin that wrote it broke the limits of KMS v2",)),
    9: ("the source type is neither a key nor a seed", ("a later version of Kubernetes wrote it",)),
    10: ("there are no sealed data", ("the value was cut",)),
    11: ("a key id or an annotation's key isn't UTF-8", ("the value was changed, or is of another format",)),
    12: ("no provider of the resource's list reads such a value", ("the key that wrote it isn't in this configuration: `inspect` names it", "another --resource: its list is another; a resource stands in the plural", "it was written by secretbox or KMS v1, which aren't read here")),
    13: ("identity would write data that begin `k8s:enc:`", ("the data are a sealed value already: decrypt them first", "the first provider of the resource is identity: another one would seal them")),
    14: ("the data have more than 2,097,152 bytes", ("the object is larger than the API server takes",)),
    15: ("the unwrapped source hasn't 32 bytes", ("the plugin answered with another key's seed, or is no plugin of this value",)),
}

FAULTS = {
    "input": ("standard input can't be read", "is it open, and no folder?"),
    "output": ("standard output can't be written", "is the disk full, or the pipe's reader gone? `| head` leaves before everything is written: write to a file and read that, or use `| sed -n 1,10p`, which reads to the end"),
    "store": ("the store can't be read, written or synced", "is the disk full? what was being written may be lost: copy the store to a new file (cp, sync) and go on with the copy; one that came out of etcd is imported anew"),
    "target": ("the file of --to can't be written or synced", "is the disk full? remove it and begin again"),
    "dice": ("the system gives no random bytes", "look at /dev/urandom"),
}

LIMITS = {
    "data": "an object has at most 2,097,152 bytes, as in the API server",
    "value": "a stored value has at most 2,162,688 bytes; is the input one value alone?",
    "replicas": "at most 16 API servers",
    "size": "a load has at most 10,000 objects a worker",
    "page": "a page has at most 10,000 objects",
    "config": "a configuration file has at most 1,048,576 bytes; is it another file?",
    "entries": "a configuration has at most 64 entries",
    "patterns": "a configuration has at most 256 resources over all entries",
    "keys": "a configuration has at most 64 keys over all entries",
    "kms": "a configuration has at most 16 kms providers over all entries",
    "store": "a store has at most 67,108,864 bytes, all revisions included; put live rows into several stores",
    "script": "a fleet file has at most 67,108,864 bytes",
    "workers": "a fleet has at most 64 workers",
    "journal": "a call makes at most 4,000,000 lines of the journal; split the work",
}

CLASH = "two secrets of one name: for {0} both configurations have {1}, with another secret each", "give the new key another name: what is stored names its key alone"

VERDICTS = {
    "pass": ("nothing that is stored, and nothing that an API server writes, would become unreadable", "go on"),
    "drops-stored": ("the new configuration doesn't read what is stored at {0} by {1}", "rewrite first, by a configuration that writes with another key; or leave {1} in the new configuration"),
    "drops-writer": ("{0} writes {1} by {2}, and the new file doesn't read that", "give it first a file that writes by another key; or leave {2} in the new one"),
    "unread": ("{0} doesn't read what the new file would write to {1} by {2}", "give it first a file that reads {2}, and writes as it does now"),
}

# Of 49: {0} is the API server that has the file already; {1} and on is what the verdict names.
TOO_EARLY = {
    "drops-stored": (
        "{0} has a file already that doesn't read what is stored at {1} by {2}: that key was taken away there too early, or not given yet",
        "{0} gets at once a file that reads {2} too, and writes by a key that all others read",
    ),
    "drops-writer": (
        "{1} writes {2} by {3}, and {0} has a file already that doesn't read that: that key was taken away there too early, or not given yet",
        "{0} gets at once a file that reads {3} too, and writes by a key that all others read",
    ),
    "unread": (
        "{0} has a file already that writes {2} by {3}, and {1} doesn't read that: the key came first there too early",
        "{0} gets at once a file that reads {3} and writes by a key that {1} reads; {1} gets one that reads {3}, since {0} may have stored by it",
    ),
}
