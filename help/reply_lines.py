"""What the lines of a fleet, a watch, a load, a plan and of `check` and `inspect` mean. Forms are those of bridge_lines."""

from bridge_lines import pattern

LEFT = "with the last number above 0: `verify` says why"
NEXT = "a configuration's number counts all that the API servers had, from 0 on"

# What came of a worker's line, behind its name and number.
REPLIES = [
    ("put #", "the data were written, as row {0}", ""),
    ("delete #", "the object was deleted, by row {0}", ""),
    ("get # *", "the object was read from row {0}; its data follow in base64, `-` for none", ""),
    ("absent", "there is no such object", ""),
    ("rewrite # # # #", "{0} objects were re-encrypted, {1} were fresh, {2} were changed by others meanwhile, {3} were left as they are", LEFT),
    ("reload #", "the API server has the new configuration, as number {0}", NEXT),
    ("join #", "the API server is in, with the configuration of number {0}", NEXT),
    ("leave #", "the API server is out; it had the configuration of number {0}", NEXT),
    ("refresh #", "a plugin has another key, so the API server's configuration was published again, as number {0}", NEXT),
    ("refresh unchanged", "no plugin has another key: nothing was done", ""),
    ("refresh moved #", "the API server got another configuration meanwhile, number {0}", NEXT),
    ("present #", "the API server is in already, with the configuration of number {0}", NEXT),
    ("gone", "the API server isn't in", ""),
    ("unhealthy * * *", "the plugin {0} isn't healthy: its {1} is `{2}`", "look at the plugin and its key service"),
    ("fault plugin *", "the plugin {0} ended, refused, or gave no valid answer", "its own words are on standard error"),
    ("fault dice *", "the system gives no random bytes", "look at /dev/urandom"),
    ("fault store", "the row couldn't be written or synced", "is the disk full? copy the store to a new file and go on with the copy"),
    ("full", "the store has no room for the row", "a store has at most 67,108,864 bytes, all revisions included"),
    ("memory", "out of memory", ""),
]

# What happened, behind a journal's number and the worker's name.
EVENTS = [
    ("adopt * #", "it takes up the configuration of API server {0}, number {1}, for its next line", ""),
    ("reload * #", "API server {0} has the new configuration, as number {1}", ""),
    ("join * #", "API server {0} is in, with the configuration of number {1}", ""),
    ("leave * #", "API server {0} is out; its configuration was number {1}", ""),
    ("moved * #", "API server {0} has another configuration meanwhile, number {1}", ""),
    ("present * #", "API server {0} is in already, with number {1}", ""),
    ("refused * *", "API server {0} isn't given the new configuration: {1}", "`kmsrest explain` of the words after its name says why"),
    ("gone * *", "`{0}` at API server {1}, which isn't in", ""),
    ("fetch * #", "it looks up {0}, and finds row {1} (0: none)", ""),
    ("after * #", "a rewrite looks for the first object after {0}, and finds row {1} (0: none)", ""),
    ("put * #", "{0} is written, as row {1}", ""),
    ("delete * #", "{0} is deleted, by row {1} (0: there was nothing)", ""),
    ("replace * # #", "a rewrite re-encrypts {0}: row {2} replaces row {1}", ""),
    ("changed * # #", "a rewrite leaves {0}: row {1} isn't the last one any more, which is {2}", ""),
    ("letgo", "the line is done", ""),
    ("failed * *", "`{0}` of {1}: the row couldn't be written", ""),
    ("full * *", "`{0}` of {1}: the store has no room for the row", ""),
    ("nothing *", "`{0}`: out of memory, nothing was done", ""),
]

MOVES = [
    ("reload # wide", "a move: give API server {0} the file of `--show wide`, which reads what it writes now and what it is to write", "ask `judge` first, and wait until it has read the file"),
    ("reload # turned", "a move: give API server {0} the file of `--show turned`, which writes as it is to, and reads the same", "ask `judge` first, and wait until it has read the file"),
    ("reload # to", "a move: give API server {0} the file of `--to`", "docs/OPERATORS.md, 'When an old key may go'"),
    ("rewrite", "a move: re-encrypt what is stored: etcd-to-store, rewrite, store-to-etcd", "it must leave nothing: `left 0`, and status 0"),
    ("reload # *: reload #", "tried: API server {0} got the file `{1}`, as the configuration of number {2}", NEXT),
    ("rewrite: rewrite # # # #", "tried: {0} objects were re-encrypted, {1} were fresh, {2} changed, {3} left as they are", LEFT),
    ("# of # objects are read", "tried: after all moves {0} of {1} objects are read", ""),
    ("unread: *", "tried: {0} isn't read after all moves", "`verify` with each file names it, and why"),
]

OTHERS = [
    ("entry #: *: *", "entry {0} of the configuration: the resources {1}, with the providers {2}; the first one writes", ""),
    ("plain #", "the value is stored in the clear, {0} bytes", ""),
    ("aescbc * #", "the value is sealed by aescbc:{0}, and has a body of {1} bytes", ""),
    ("aesgcm * #", "the value is sealed by aesgcm:{0}, and has a body of {1} bytes", ""),
    ("kms * #", "the value is sealed by the plugin {0}, and has an encrypted object of {1} bytes, which the next lines describe", ""),
    ("key-id *", "the plugin's key id is {0}", ""),
    ("source #", "the wrapped source has {0} bytes", ""),
    ("annotation * #", "the plugin's annotation {0} has {1} bytes", ""),
    ("type #", "the source is a key (0) or a seed (1): {0}", ""),
    ("data #", "the sealed data have {0} bytes", ""),
    ("page # *", "a page of {0} objects follows; the next one begins at {1}, `-` if there is none", ""),
    ("change # * *", "row {0}: `{1}` of {2}", ""),
    ("gen # #", "the load of seed {0}, with {1} objects for each worker", ""),
    ("puts #", "{0} puts of the load were answered", ""),
    ("gets #", "{0} gets of the load were answered", ""),
    ("digest *", "the digest of what the load's gets read", "over an empty store the same seed and size give the same digest"),
    ("journal", "the journal's lines follow: number, worker, event", ""),
    ("replies", "the replies follow: worker, number of its line, reply", ""),
    ("end", "everything was printed", ""),
]


def told(forms, text):
    """What a line of one of these forms means, and what to do; or None."""
    for form, means, do in forms:
        found = pattern(form).fullmatch(text)
        if found:
            return means.format(*found.groups()), do
    return None


def reply(words):
    """What a reply or a line of a journal means, with its worker; or None."""
    if len(words) < 3:
        return None
    text, worker, number = " ".join(words[2:]), words[0], words[1]
    if number.isdigit() and not worker.isdigit():
        found, head = told(REPLIES, text), f"line {number} of the worker {worker}: "
    elif worker.isdigit():
        found, head = told(EVENTS, text), f"what happened as number {worker}, by the worker {number}: "
    else:
        return None
    return (head + found[0], found[1]) if found else None
