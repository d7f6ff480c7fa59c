"""What is said of a resource that no entry of a configuration names."""

from call_words import entries_of, near
from reference import configuration


def after(call, status, _errors):
    name, resource = call.one("config"), call.one("resource")
    if call.command != "check" or status != 0 or not name or not resource:
        return []
    entries = entries_of(name)
    if entries is None or any(configuration.covers(pattern, resource) for patterns, _ in entries for pattern in patterns):
        return []
    named = [pattern for patterns, _ in entries for pattern in patterns if "*" not in pattern]
    return [f"remark: no entry of {name} names {resource}, so API servers store it in the clear{near(resource, named)}"]
