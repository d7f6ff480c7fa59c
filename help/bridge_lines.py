"""What the lines of the bridges mean, and what to do. In a form `*` is any text, `#` a number, `@` a word in capitals, as gRPC's
codes are, and `$` an error in the system's words; what stands there goes into the texts, the first one as {0}."""

import errno
import os
import re

ETCD = ("etcd-to-store", "store-to-etcd", "etcd-audit")
BRIDGES = (*ETCD, "kms-bridge")
RECOVER = ("recover",)
READERS = ("etcd-to-store", "etcd-audit")
OPENERS = ("etcd-to-store", "store-to-etcd")

UNOPENED = "docs/OPERATORS.md, 'A value that can't be opened': import without --config, and `kmsrest verify` names each such value"
ANEW = "remove the store and its map, and begin with etcd-to-store again"
ASK = "`etcdctl endpoint health` asks with the same environment; https or http in ETCDCTL_ENDPOINTS, and the three certificates"
RIGHTS = "if a user or a right is missing: ETCDCTL_USER, and docs/OPERATORS.md, 'What you need'"
PACKAGES = "install Debian's packages of these names, or your system's (docs/OPERATORS.md, 'What you need')"
FIRST = "write one object through an API server, and count by etcd-audit: sealed, call again; plain, take the resource out of the entry"
BRIDGE_WORDS = "`bridges/{} --help` shows its words"

# Which programs write the line, its form, what it means, and what to do.
FORMS = [
    # ---- etcd itself
    (("store-to-etcd",), "the plugin * gave no answer within # seconds", "the program of the plugin {0} was asked, and said nothing for {1} seconds", "look at the plugin and its key service; nothing was written"),
    (ETCD, "ETCDCTL_ENDPOINTS names no endpoint", "ETCDCTL_ENDPOINTS is set, and nothing but commas is in it", "name one, or unset it: without it 127.0.0.1:2379 is asked"),
    (ETCD, "ETCDCTL_* is set, and ETCDCTL_* isn't: a client's certificate and its key go together", "ETCDCTL_{0} alone is no certificate of a client", "set ETCDCTL_{1} too"),
    (ETCD, "ETCDCTL_CACERT names no certificate in PEM", "the file of ETCDCTL_CACERT isn't etcd's CA", "name its certificate, as /etc/kubernetes/pki/etcd/ca.crt"),
    (ETCD, "ETCDCTL_CERT and ETCDCTL_KEY are no certificate in PEM with its key, or don't go together", "the two files that ETCDCTL_CERT and ETCDCTL_KEY name can't be used as a client's certificate", "name a certificate and its own key, without a password: server.crt and server.key of /etc/kubernetes/pki/etcd"),
    (ETCD, "etcd tells more than # keys", "etcd goes on without an end", "is something between the bridge and etcd? ask the endpoint itself"),
    (ETCD, "etcd gives no answer: *: *", "no endpoint of ETCDCTL_ENDPOINTS gave an answer ({0})", ASK),
    (ETCD, "etcd refuses: *: *has been compacted*", "etcd compacted the revision meanwhile", "begin again; a larger --page, or --only, reads faster"),
    (ETCD, "etcd refuses: *: *", "etcd answers, and refuses ({0}: {1})", RIGHTS),
    (ETCD, "etcd refuses a transaction though all that it compares holds", "etcd answers what can't be", "is something between the bridge and etcd? ask the endpoint itself"),
    (ETCD, "* gave no answer in # seconds", "{0} was called for etcd, and didn't end within {1} seconds", ASK),
    (ETCD, "* ended with #: *permission denied*", "etcd answers, and refuses: the user doesn't have the right", RIGHTS),
    (ETCD, "* ended with #: *", "{0} was called for etcd, and failed: {2}", ASK),
    (ETCD, "the endpoints are of several clusters, * and *", "ETCDCTL_ENDPOINTS names etcds of two clusters", "name those of one cluster alone"),
    (ETCD, "* names no endpoint that answers: *", "{0} was asked which cluster each endpoint is of, and none answers: {1}", ASK),
    (ETCD, "etcd's answer to a transaction doesn't tell what stands there", "etcd answers what can't be", "is something between the bridge and etcd? ask the endpoint itself"),
    (ETCD, "etcd tells the key * where it can't be: each comes once, in its order", "etcd answers what can't be: the key {0} a second time, or one that wasn't asked for", "is something between the bridge and etcd? ask the endpoint itself"),
    (ETCD, "etcd tells that there is more, and tells no key", "etcd answers what can't be", "is something between the bridge and etcd? ask the endpoint itself"),
    (ETCD, "standard output is closed, so nothing could be told; nothing was done", "the call has no standard output (`>&-`), and did nothing", "give it one; /dev/null is one"),
    (ETCD, "standard output: *", "standard output took no more ({0}); what it should have got stands on standard error", "is its disk full, or did its reader leave, as `| head` does?"),
    (ETCD, "out of memory", "the system gave no more memory", "parts are smaller: --part, --only, a smaller --page"),
    (ETCD, "*, and there is no etcdctl", "etcd can be asked neither by gRPC ({0}) nor by etcdctl", PACKAGES),
    (ETCD, "etcdctl can't be asked for keys from one on that holds a NUL", "a key has a zero byte, and etcdctl takes no such word", "read by gRPC: install python3-grpcio"),
    (ETCD, "* writes no JSON of etcdctl", "what {0} holds or writes isn't JSON as `etcdctl -w json` writes it", "write the file by: etcdctl get --prefix /registry/ -w json"),
    (READERS, "* has the key * twice", "{0} isn't what `etcdctl get -w json` writes: the key {1} is there twice", "write it by: etcdctl get --prefix /registry/ -w json"),
    (ETCD, "the JSON has a key without its bytes, its value or its revisions", "the JSON isn't what `etcdctl get -w json` writes", "write it by: etcdctl get --prefix /registry/ -w json"),
    (ETCD, "ETCDCTL_*: *: *", "the file that ETCDCTL_{0} names can't be read: {2}", "name a file that is there, and run as a user who may read it (root for /etc/kubernetes/pki/etcd)"),
    # ---- what is read
    (READERS, "no key stands below *: --prefix names the API server's --etcd-prefix", "nothing was read: no key stands below {0}", "give the API server's --etcd-prefix as --prefix; is it the right etcd? `etcdctl get --prefix / --keys-only --limit 5`"),
    (READERS, "* has # of * keys: it was written with a limit", "{0} isn't all of what etcd had", "write it without --limit: etcdctl get --prefix /registry/ -w json"),
    (READERS, "* has keys without values: it was written with --keys-only", "{0} has no values", "write it without --keys-only: etcdctl get --prefix /registry/ -w json"),
    (READERS, "a snapshot is read by etcd and etcdutl or etcdctl, which aren't there", "a snapshot is served by an etcd of the bridge's own, and there is none", PACKAGES),
    (READERS, "* can't be restored: *", "etcd doesn't take {0} as a snapshot: {1}", "is it whole, and of an etcd as new as this one? `etcdctl snapshot status` tells"),
    (READERS, "etcd doesn't serve the snapshot's copy: *", "the etcd over the snapshot's copy doesn't begin to serve: {0}", "is there room in TMPDIR?"),
    # ---- etcd-to-store
    (("etcd-to-store",), "*: the place * is unknown: --resource *=RESOURCE says what it holds", "nobody told which resource is stored below {1}, where {0} is a key", "--resource {1}=RESOURCE, as the API server's group and plural; or --except, --only"),
    (("etcd-to-store",), "*: the key has *", "no store can hold this key: it has {1}", "--leave-out copies the rest; this object then stays as it is in etcd"),
    (("etcd-to-store",), "*: the value has more than # bytes*", "no store can hold this value: it has more than {1} bytes", "--leave-out copies the rest; this object then stays as it is in etcd"),
    (("etcd-to-store",), "(and # more: *)", "so do {0} values more", "the lines before name the first ten"),
    (("etcd-to-store",), "* is there already, and nothing is written over", "a file {0} is there", "take another name, or remove the old store and its map: rm {0} {0}.map"),
    (("etcd-to-store",), "*: *; nothing was written", "{0} couldn't get its name: {1}", "take another name, or another folder"),
    (("etcd-to-store",), "the store would have more than # bytes: --part # parts it", "all of it is more than a store may have", "--part {1} makes several stores; or --only takes one resource"),
    (("etcd-to-store",), "a rewrite of all rows needs as much room again: --part # parts them", "the store is made, and a rewrite of it would end with `limit store`", "--part {0} makes several stores"),
    (("etcd-to-store",), "keys stand there, and none is of a resource that was asked for", "the store is empty: --only and --except leave nothing", "is the resource in the plural, with its group? `bridges/etcd-audit` counts what there is"),
    (("etcd-to-store",), "part * # #", "{0} is a store with {1} rows and {2} bytes, with its map {0}.map", "rewrite and write back each; ask `judge` and `verify` of each"),
    # ---- opening
    (OPENERS, "*: no provider of * reads the value, *", "the value at {0} is {2}, and the configuration hasn't that for {1}", UNOPENED),
    (OPENERS, "*: * doesn't open the value: * *", "the value at {0} names {1}, and that key doesn't open it ({3}): another secret of that name, or the value was changed", UNOPENED),
    (OPENERS, "*: * opens the value to what is no object of an API server: another secret of that name?", "{1} opens the value at {0} to rubbish: aescbc has no tag, so a wrong secret opens one value in 256", UNOPENED),
    (OPENERS, "values are opened by Python's cryptography, which isn't here", "/usr/bin/python3 has no module cryptography", PACKAGES),
    (OPENERS, "the configuration * has more than # bytes", "{0} is no configuration", "is it another file?"),
    (OPENERS, "the configuration *: *", "the configuration {0} can't be used: {1}", ""),
    (OPENERS, "nothing was written", "the call ended before anything was written; the lines before it say why", ""),
    # ---- store-to-etcd
    (("store-to-etcd",), "the store * is locked: another program has it open", "{0} is open in another kmsrest, such as a rewrite", "wait for that one"),
    (("store-to-etcd",), "the store * has more than # bytes", "{0} is no store", "is it another file?"),
    (("store-to-etcd",), "the store *: *", "the store {0} can't be used: {1}", ""),
    (("store-to-etcd",), "the map * is torn: *", "the map {0} isn't whole: {1}", ANEW),
    (("store-to-etcd",), "the map * is of version *, and not *", "another kmsrest made the map {0}", ANEW),
    (("store-to-etcd",), "the map *: line # *", "the map {0} was changed: line {1} {2}", ANEW),
    (("store-to-etcd",), "the map *: *", "the map {0} can't be read: {1}", "it is made beside the store as STORE.map; of a copied or renamed store name it: --map STORE.map"),
    (("store-to-etcd",), "*: the map hasn't this path", "the store has a path {0} that wasn't imported: store and map don't go together, or something was put", "name the map that was made with this store; else " + ANEW),
    (("store-to-etcd",), "*: the store's value is gone", "{0} was imported, and the store has no value there: it was cut (text 42), or a fleet deleted it", ANEW),
    (("store-to-etcd",), "*: the store has it as *, the map as *", "store and map don't go together at {0}", "name the map that was made with this store"),
    (("store-to-etcd",), "*: the store's first value isn't the one that the map was made with", "store and map don't go together at {0}", "name the map that was made with this store"),
    (("store-to-etcd",), "*: the old value and the new one open to different objects", "a rewrite would have changed the object at {0}, which none does: the store isn't a rewrite of what was imported", ANEW),
    (("store-to-etcd",), "this is the cluster *, and not *", "ETCDCTL_ENDPOINTS names the cluster {0}, and the map is of {1}", "name the right etcd; where it is the same one, restored: --cluster {0}"),
    (("store-to-etcd",), "the map names no cluster, since it is of a snapshot: --cluster * says that this one is it", "a snapshot doesn't name its cluster", "--cluster {0}, where this is the cluster that the snapshot is of"),
    (("store-to-etcd",), "values of kms:* open by its plugin alone: --plugin *=PROGRAM", "--verify opens values of the plugin {0}, which has no program", "--plugin {0}=PROGRAM; `bridges/kms-bridge --into` makes one"),
    (("store-to-etcd",), "the plugin * unwraps nothing: *", "the plugin {0} refused to unwrap: {1}", "is the old key still enabled in the key service?"),
    (("store-to-etcd",), "the plugin * answers no *", "the program of the plugin {0} ended, or writes something else than replies", "ask it by hand: echo '{{\"call\":\"status\"}}' | PROGRAM"),
    (("store-to-etcd",), "the plugin *: *: *", "the program of the plugin {0} can't be started: {2}", "is {1} there, and executable?"),
    (("store-to-etcd",), "*: * plain value* stay*, since nothing of it in etcd is sealed: do the API servers seal it at all?", "etcd has no sealed value of {0}, so nothing shows that the API servers seal it; where they don't, they can neither read nor list what was sealed by others", FIRST),
    (("store-to-etcd",), "*: write one object of it through an API server, and look by etcd-audit", "an API server seals {0} if what it writes now is sealed", FIRST),
    (("store-to-etcd",), "--first RESOURCE seals the plain values of a resource all the same", "a resource named so is sealed though nothing shows that the API servers seal it", FIRST),
    (("store-to-etcd",), "unknown *", "the value of {0} was sent to etcd, and no answer says whether it was written", "call it again with the same words: what was written counts as already"),
    (("store-to-etcd",), "changed *", "somebody wrote or deleted {0} since the import; it stays as it is", "begin with etcd-to-store again, under another name: a second round takes it"),
    (("store-to-etcd",), "refused * *", "etcd doesn't take the value of {0}: {1}", "it is too large for etcd's --max-request-bytes; it stays as it is, sealed by the old key"),
    # ---- etcd-audit
    (("etcd-audit",), "still *: #", "{1} values of {0} are stored, so its key may not go", "re-encrypt them; docs/OPERATORS.md, 'When an old key may go'"),
    (("etcd-audit",), "remark: * was looked for among * alone, as --only says: other resources may need it", "no value of {1} is of {0}, and no other resource was counted", "ask again without --only before the key goes"),
    (("etcd-audit",), "* sealed # of these values: one key is for # writes, exchange it", "{1} values in etcd are sealed by {0}, whose nonces are random: two values under one nonce reveal both", "exchange the key: docs/OPERATORS.md, 'Which provider'; another name for the same secret is the same key"),
    # ---- kms-bridge
    (("kms-bridge",), "standard output is closed, so nothing could be told; nothing was done", "the call has no standard output (`>&-`), and did nothing", "give it one; /dev/null is one"),
    (("kms-bridge",), "standard output: *", "standard output took no more ({0})", "is its disk full, or is kmsrest gone that reads the answers?"),
    (("kms-bridge",), "standard input: *", "standard input can't be read ({0})", "is it a file or a pipe?"),
    (("kms-bridge",), "request: *", "kmsrest's line couldn't be read as a request: {0}", "does something else write to the bridge's input?"),
    (("kms-bridge",), "*: the annotation key * is no domain name", "the plugin adds an annotation that the API server refuses", "mend the plugin: each key is a domain name of two labels or more"),
    (("kms-bridge",), "no plugin listens at *: Permission denied", "the socket {0} is there, and this user may not open it", "run as its owner, or as root"),
    (("kms-bridge",), "no plugin listens at *: Connection refused", "the socket {0} is there, and no process listens at it", "is the plugin running? it leaves its socket behind where it was killed"),
    (("kms-bridge",), "no plugin listens at *: *", "no plugin can be asked at the socket {0}: {1}", "does the plugin run, and is --endpoint the path of its socket?"),
    (("kms-bridge",), "*: UNAVAILABLE: *", "at `{0}` the plugin's socket gave no answer: {1}", "does the plugin run, and is --endpoint its socket, with the right to open it?"),
    (("kms-bridge",), "*: DEADLINE_EXCEEDED: *", "at `{0}` the plugin gave no answer in time", "look at the plugin and its key service; --timeout gives it longer"),
    (("kms-bridge",), "decrypt: @: *", "the plugin refused to unwrap ({0}): {1}", "is the old key still enabled in the key service?"),
    (("kms-bridge",), "*: @: *", "the plugin refused `{0}` ({1}): {2}", "look at the plugin and its key service"),
    (("kms-bridge",), "status: ok: *", "the plugin's status is as the API server wants it: {0}", ""),
    (("kms-bridge",), "encrypt: ok: *", "the plugin wraps as the API server wants it: {0}", ""),
    (("kms-bridge",), "decrypt: ok: *", "the plugin unwraps what it wrapped: {0}", ""),
    (("kms-bridge",), "status: *", "the plugin's status isn't as the API server wants it: {0}", "look at the plugin and its key service"),
    (("kms-bridge",), "encrypt: *", "the plugin's wrapping isn't as the API server wants it: {0}", "look at the plugin and its key service"),
    (("kms-bridge",), "decrypt: *", "the plugin's unwrapping isn't as the API server wants it: {0}", "look at the plugin and its key service"),
    (("kms-bridge",), "the answer has more than # bytes", "the plugin's answer is longer than a line may be", "look at the plugin"),
    (("kms-bridge",), "a request has more than # bytes", "what came in is no line of kmsrest", "does something else write to the bridge's input?"),
    (("kms-bridge",), "no module * here *", "/usr/bin/python3 has no module {0}", PACKAGES),
    (("kms-bridge",), "*: *, and could run another program as you: take a folder of your own, `mkdir -m 700 DIR`", "programs for {0} would stand where somebody else may change them: {1}", "mkdir -m 700 DIR, in a folder that nobody else writes, and --into DIR"),
    (("kms-bridge",), "*: the plugin *", "the configuration {0} has a plugin that can't be asked: the plugin {1}", "mend that entry"),
    (("kms-bridge",), "*: of the plugin * the name, the endpoint or the timeout is no text", "the entry of the plugin {1} in {0} isn't whole", "write name, endpoint and timeout as texts"),
    (("kms-bridge",), "*: * is there, with other words; remove it first", "a program {1} is there, of another endpoint or timeout", "rm {1}, and write it again"),
    (("kms-bridge",), "*: it can't be read*", "{0} can't be read as a configuration", "`kmsrest check --config {0}` names the line"),
    (("kms-bridge",), "*: it isn't UTF-8", "{0} is no text", "is it another file?"),
    (("kms-bridge",), "--plugin=*=*", "the word that gives kmsrest the program of the plugin {0}", "add it to kmsrest's words"),
    (BRIDGES, "error: *", "the words mean no call: {0}", BRIDGE_WORDS),
    # ---- recover
    (RECOVER, "kmsrest: recover: * is whole, with # rows: there is nothing to recover", "{0} keeps its format, and has {1} rows", "nothing; where rows should be there that aren't, take a copy, or etcd"),
    (RECOVER, "kmsrest: recover: * is there already, and nothing is written over", "a file {0} is there", "take another name"),
    (RECOVER, "kmsrest: recover: * is open in another call: wait for that one", "another kmsrest has {0} open", "wait for that one"),
    (RECOVER, "kmsrest: recover: * has no row before its breach: *", "{0} has nothing that could be kept ({1})", "is it another file? else take a copy"),
    (RECOVER, "kmsrest: recover: * is made, and standard output took no line of it", "{0} has the rows before the breach, and what was after it wasn't told", "remove {0}, and call it again"),
    (RECOVER, "kmsrest: recover: *", "{0}", "name a store, and a file that isn't there"),
    (RECOVER, "breach # #", "the store breaks its format at byte {1}, by text {0}", ""),
    (RECOVER, "behind # * deleted *, kept *", "after the breach row {0} deleted {1} ({2}); the new store keeps its revision {3}", "if it matters, delete it again"),
    (RECOVER, "behind # * * * *, kept *", "after the breach there is row {0} of {1}, of {2} by {3} ({4}); the new store keeps its revision {5}", "if it matters, put the object again: from a copy, or by whoever wrote it"),
    # ---- a file or a stream, in the system's words
    (BRIDGES, "*: $", "{0}: the system says: {1}", "is it there, and has this user the right?"),
    (("kms-bridge",), "$", "a stream failed, and the system says: {0}", "is kmsrest still there to read the answers?"),
]

# The counts that a call ends with.
COUNTS = {
    "etcd-to-store": {
        "rows": ("{0} values were copied, each as a row", "are they as many as your objects? `bridges/etcd-audit` counts them"),
        "left-out": ("{0} keys or values that no store can hold weren't copied", "with `left-out KEY: WHY` lines before: these stay as they are in etcd"),
        "revision": ("all was read as of etcd's revision {0}", ""),
    },
    "store-to-etcd": {
        "written": ("{0} values were written to etcd, in the place of those that were imported", ""),
        "would-write": ("{0} values would be written; this was a dry run, and nothing was", "the same words without --dry-run"),
        "already": ("{0} values stood in etcd as the store has them: an earlier run of this wrote them", ""),
        "changed": ("{0} objects were written or deleted by somebody since the import, and stay as they are", "with more than 0 a second round takes them: begin with etcd-to-store again, under another name"),
        "refused": ("{0} values were too large for etcd, and stay as they are", "with more than 0 their key may not go: docs/OPERATORS.md, 'When an old key may go'"),
        "left-plain": ("{0} values stay in the clear: nothing shows that the API servers seal their resource", FIRST),
        "unknown": ("of {0} values nobody knows whether they were written: they were sent, and etcd gave no answer", "call it again with the same words: what was written counts as already"),
        "unsent": ("{0} values weren't sent, since the call was stopped before", "call it again with the same words"),
        "same": ("{0} values are as they were imported: the rewrite left them so", "fresh ones need nothing; of `left` ones `kmsrest verify` says why"),
    },
    "rewrite": {
        "rewritten": ("{0} objects were re-encrypted", ""),
        "fresh": ("{0} objects are sealed as the configuration would write them today", ""),
        "changed": ("{0} objects were written by another meanwhile; a rewrite is alone, so it is always 0", ""),
        "left": ("{0} objects are stored as before: they can't be read by this configuration, or their data can't be sealed", "`verify` with the same words names each that is refused, and why; one that it calls stale has data that can't be sealed"),
    },
    "verify": {
        "fresh": ("{0} objects are read, and sealed as the configuration would write them today", ""),
        "stale": ("{0} objects are read, and another key or provider would write them today", "with more than 0: `kmsrest rewrite` re-encrypts them"),
        "refused": ("{0} objects can't be read by this configuration", "with more than 0 the lines before name them, each with why; give the configuration the key that wrote them"),
    },
    "recover": {
        "behind": ("{0} paths have a row after the breach, as far as that can be read", "with more than 0 the lines before name each, and what the new store keeps of it"),
        "unread": ("{0} bytes after the breach aren't a whole row", ""),
        "recovered": ("{0} rows were before the breach, and are in the new store", "`verify` of the new store: rows have no checksum"),
    },
    "put": {"revision": ("what was put is row {0} of the store", "")},
    "migrate": {"migrated": ("{0} rows were copied", "")},
}


# What a count of nothing means, where that is what one hopes for, or where it is not.
NONE = {
    ("etcd-to-store", "rows"): ("nothing was copied", "is it the right --prefix, --only and --except? `bridges/etcd-audit` counts what there is"),
    ("etcd-to-store", "left-out"): ("nothing was left out, as it should be", ""),
    ("store-to-etcd", "changed"): ("nobody wrote meanwhile, as it should be", ""),
    ("store-to-etcd", "refused"): ("etcd took everything, as it should be", ""),
    ("rewrite", "left"): ("no object was left, as it should be", "the rewrite is done if its status is 0 too: one that a fault ended may print `left 0`, and then a line says why"),
    ("verify", "stale"): ("no object is stale: a rewrite would find nothing to do", ""),
    ("verify", "refused"): ("this configuration reads all objects, as it should", ""),
}


SYSTEM = "|".join(sorted((re.escape(os.strerror(number)) for number in errno.errorcode), key=len, reverse=True))
STANDS_FOR = {"*": "(.*)", "#": "([0-9]+)", "@": "([A-Z_]+)", "$": f"({SYSTEM})"}


def pattern(form):
    return re.compile("".join(STANDS_FOR.get(part, re.escape(part)) for part in re.split(r"([*#@$])", form)), re.S)


def meaning(programs, text):
    """What a line of one of these programs means, and what to do; or None."""
    for known, form, means, do in FORMS:
        found = set(known) & set(programs) and pattern(form).fullmatch(text)
        if found:
            return means.format(*found.groups()), (do.format(*programs) if do is BRIDGE_WORDS else do.format(*found.groups()))
    return None


def audited(words):
    """What a line of an audit means."""
    resource, provider = words[1:3]
    if provider not in ("plain", "strange") and not provider.startswith(("aescbc:", "aesgcm:", "kms:")):
        return None
    place = "is stored at a place that the table doesn't know: --resource PLACE=RESOURCE names it" if resource.startswith("?") else ""
    sealed = {"plain": "stored in the clear", "strange": "sealed by a provider that isn't read here, as secretbox or KMS v1"}
    key_id = f" under the plugin's key id {' '.join(words[3:])}" if len(words) > 3 else ""
    many = "1 object of {} is" if words[0] == "1" else words[0] + " objects of {} are"
    return f"{many.format(resource)} {sealed.get(provider, f'sealed by {provider}')}{key_id}", place and f"{resource} {place}"


def counts(word, number, command):
    """What a line `WORD NUMBER` means: for the command that is named, or else for each that writes such a line."""
    for name, known in COUNTS.items():
        if word in known and command in (name, ""):
            means, do = NONE.get((name, word), known[word]) if number == "0" else known[word]
            yield (means if command else f"of {name}: {means}").format(number), do
