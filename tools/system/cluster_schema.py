"""The forms that a Job, a CronJob and Prometheus' rules have, as strictly as an API server takes them: a member that isn't known is a
fault, and so is a volume that nobody mounts. The members are those that examples/kubernetes uses, by the API of Kubernetes 1.29."""
import re
from collections.abc import Callable, Iterator
from dataclasses import dataclass, field
from typing import Any

Faults = Iterator[str]
Form = Callable[[Any, str], Faults]


def text(pattern: str = r"[\s\S]+") -> Form:
    """A text of this pattern."""

    def judge(value: Any, place: str) -> Faults:
        if not isinstance(value, str) or not re.fullmatch(pattern, value):
            yield f"{place}: {value!r} isn't of the form {pattern}"

    return judge


def number(least: int, most: int = 2**31 - 1) -> Form:
    def judge(value: Any, place: str) -> Faults:
        if isinstance(value, bool) or not isinstance(value, int) or not least <= value <= most:
            yield f"{place}: {value!r} is no number from {least} to {most}"

    return judge


def flag(value: Any, place: str) -> Faults:
    if not isinstance(value, bool):
        yield f"{place}: {value!r} is neither true nor false"


def word(*words: str) -> Form:
    return text("|".join(map(re.escape, words)))


def each(form: Form) -> Form:
    """A list that isn't empty, of which each has this form."""

    def judge(value: Any, place: str) -> Faults:
        if not isinstance(value, list) or not value:
            yield f"{place}: {value!r} is no list that has something"
            return
        for at, element in enumerate(value):
            yield from form(element, f"{place}[{at}]")

    return judge


def pairs(form: Form) -> Form:
    """Names with values of this form."""

    def judge(value: Any, place: str) -> Faults:
        if not isinstance(value, dict) or not value:
            yield f"{place}: {value!r} has no members"
            return
        for name, one in value.items():
            yield from QUALIFIED(name, place)
            yield from form(one, f"{place}.{name}")

    return judge


@dataclass(frozen=True)
class Members:
    """Members by their names: those that must be there, and those that may; and a rule over all of them."""

    required: dict[str, Form]
    optional: dict[str, Form] = field(default_factory=dict)
    rule: Form | None = None

    def __call__(self, value: Any, place: str) -> Faults:
        if not isinstance(value, dict):
            yield f"{place}: {value!r} has no members"
            return
        known = {**self.required, **self.optional}
        yield from (f"{place}: it lacks {name}" for name in self.required if name not in value)
        for name, one in value.items():
            if name in known:
                yield from known[name](one, f"{place}.{name}")
            else:
                yield f"{place}: {name} is no member here"
        if self.rule is not None:
            yield from self.rule(value, place)


# ---- Kubernetes' own forms

LABEL = text(r"[a-z0-9]([-a-z0-9]{0,61}[a-z0-9])?")
QUALIFIED = text(r"([a-z0-9.-]+/)?[A-Za-z0-9]([-A-Za-z0-9_.]{0,61}[A-Za-z0-9])?")
QUANTITY = text(r"[0-9]+(\.[0-9]+)?(m|k|M|G|T|Ki|Mi|Gi|Ti)?")
FOLDER = text(r"/[^:]*")
IMAGE = text(r"[a-z0-9.-]+(:[0-9]+)?/[a-z0-9._/-]+:[A-Za-z0-9._-]+")
FIELD = r"(\*|[0-9]+(-[0-9]+)?)(/[0-9]+)?"
SCHEDULE = text(rf"{FIELD}(,{FIELD})*( {FIELD}(,{FIELD})*){{4}}")
METADATA = Members({"name": LABEL, "namespace": LABEL}, {"labels": pairs(text())})


def one_source(volume: dict[str, Any], place: str) -> Faults:
    if len(volume) != 2:
        yield f"{place}: a volume has a name and one source"


VOLUME = Members(
    {"name": LABEL},
    {
        "persistentVolumeClaim": Members({"claimName": LABEL}, {"readOnly": flag}),
        "secret": Members({"secretName": LABEL}),
        "hostPath": Members({"path": FOLDER}, {"type": word("Directory", "DirectoryOrCreate")}),
        "emptyDir": Members({}, {"medium": word("Memory"), "sizeLimit": QUANTITY}),
    },
    one_source,
)
CONTAINER = Members(
    {
        "name": LABEL,
        "image": IMAGE,
        "imagePullPolicy": word("Never", "IfNotPresent", "Always"),
        "command": each(text()),
        "securityContext": Members(
            {
                "runAsUser": number(0),
                "allowPrivilegeEscalation": flag,
                "readOnlyRootFilesystem": flag,
                "capabilities": Members({"drop": each(text("[A-Z_]+"))}),
            }
        ),
        "volumeMounts": each(Members({"name": LABEL, "mountPath": FOLDER}, {"readOnly": flag})),
    },
    {
        "args": each(text()),
        "env": each(Members({"name": text("[A-Za-z_][A-Za-z0-9_]*"), "value": text("[ -~]*")})),
        "resources": Members({"requests": pairs(QUANTITY)}, {"limits": pairs(QUANTITY)}),
    },
)


def all_mounted(pod: dict[str, Any], place: str) -> Faults:
    """Each volume is mounted, and each mount has a volume; names stand once."""
    named = [volume.get("name") for volume in pod.get("volumes", [])]
    mounted = [mount.get("name") for one in pod.get("containers", []) for mount in one.get("volumeMounts", [])]
    if len(named) != len(set(named)):
        yield f"{place}: two volumes have one name"
    for name in set(named) ^ set(mounted):
        yield f"{place}: the volume {name} is {'never mounted' if name in named else 'mounted, and is none'}"


POD = Members(
    {"restartPolicy": word("Never", "OnFailure"), "containers": each(CONTAINER), "volumes": each(VOLUME)},
    {
        "hostNetwork": flag,
        "automountServiceAccountToken": flag,
        "nodeSelector": pairs(text("[A-Za-z0-9._-]*")),
        "tolerations": each(Members({"operator": word("Exists", "Equal")}, {"key": QUALIFIED, "effect": text()})),
    },
    all_mounted,
)


def of_one_mode(job: dict[str, Any], place: str) -> Faults:
    """What goes with numbered pods alone, and what wants pods that aren't begun again in place."""
    indexed = job.get("completionMode") == "Indexed"
    if indexed and "completions" not in job:
        yield f"{place}: Indexed wants completions"
    if "backoffLimitPerIndex" in job:
        if not indexed:
            yield f"{place}: backoffLimitPerIndex wants completionMode: Indexed"
        if job.get("template", {}).get("spec", {}).get("restartPolicy") != "Never":
            yield f"{place}: backoffLimitPerIndex wants restartPolicy: Never"


JOB_SPEC = Members(
    {"template": Members({"spec": POD}, {"metadata": Members({"labels": pairs(text())})})},
    {
        "completionMode": word("Indexed", "NonIndexed"),
        "completions": number(1),
        "parallelism": number(0),
        "backoffLimit": number(0),
        "backoffLimitPerIndex": number(0),
        "activeDeadlineSeconds": number(1),
        "ttlSecondsAfterFinished": number(0),
    },
    of_one_mode,
)
CRON_SPEC = Members(
    {"schedule": SCHEDULE, "jobTemplate": Members({"spec": JOB_SPEC})},
    {
        "concurrencyPolicy": word("Allow", "Forbid", "Replace"),
        "successfulJobsHistoryLimit": number(0),
        "failedJobsHistoryLimit": number(0),
        "startingDeadlineSeconds": number(0),
        "suspend": flag,
    },
)
KINDS = {
    kind: Members({"apiVersion": word("batch/v1"), "kind": word(kind), "metadata": METADATA, "spec": spec})
    for kind, spec in (("Job", JOB_SPEC), ("CronJob", CRON_SPEC))
}
RULES = Members(
    {
        "groups": each(
            Members(
                {
                    "name": text(),
                    "rules": each(
                        Members(
                            {"alert": text("[A-Za-z]+"), "expr": text(), "for": text("[0-9]+[smhdw]")},
                            {"labels": pairs(text()), "annotations": Members({"summary": text(), "description": text()})},
                        )
                    ),
                }
            )
        )
    }
)


def faults_of_object(value: Any, place: str) -> list[str]:
    """What is wrong with an object for an API server."""
    kind = value.get("kind") if isinstance(value, dict) else None
    if kind not in KINDS:
        return [f"{place}: {kind!r} is no kind that is known here"]
    return list(KINDS[kind](value, place))
