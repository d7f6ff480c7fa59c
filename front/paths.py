"""What is said of a path that no etcd has."""


def after(call, status, _errors):
    path = call.one("path")
    if call.command != "put" or status != 0 or not path or path.startswith("/"):
        return []
    return [f"remark: --path {path} has no / in front: etcd's keys begin with one, and another path is another object"]
