"""Prometheus' rules of examples/kubernetes, by promtool: read, and fed with series of which one must alert and the others mustn't."""
import json
from dataclasses import dataclass
from pathlib import Path

from support import Checks, call

# In minutes. What lasts longer than a day is looked at each hour alone.
HOUR, DAY, WEEK = 60, 24 * 60, 7 * 24 * 60
EXPORTED = 'node_textfile_mtime_seconds{file="/var/lib/node-exporter/kmsrest.prom",instance="n"}'


def counted(resource: str, provider: str, key_id: str = "") -> str:
    """The series of a kind of value, as etcd-audit names it."""
    return f'kmsrest_stored_values{{resource="{resource}",provider="{provider}",key_id="{key_id}"}}'


@dataclass(frozen=True)
class Case:
    """What is stored for how many minutes, and which rule alerts then, with the labels that it adds to its own. The counts are brought
    up to date all the time, or were at the beginning alone; or there is no file of them."""

    name: str
    stored: dict[str, int]
    minutes: int
    alerts: dict[str, dict[str, str]]
    is_fresh: bool = True

    @property
    def step(self) -> int:
        """The minutes between two looks."""
        return HOUR if self.minutes > DAY else 1

    def series(self) -> dict[str, str]:
        """The series, as promtool writes values that stay or rise."""
        looks = 2 * self.minutes // self.step
        found = {name: f"{number}+0x{looks}" for name, number in self.stored.items()}
        rise = 60 * self.step if self.is_fresh else 0
        return {**found, EXPORTED: f"0+{rise}x{looks}"} if self.stored else found


SEALED = {counted("secrets", "aescbc:key2"): 12, counted("configmaps", "plain"): 3}
CLEAR = {counted("secrets", "plain"): 1}
BY_TWO = {counted("secrets", "aescbc:key1"): 2, counted("secrets", "aescbc:key2"): 10}
BY_TWO_IDS = {counted("secrets", "kms:p", "k1"): 2, counted("secrets", "kms:p", "k2"): 10}
STRANGE = {counted("secrets", "strange"): 1}
OF_SECRETS = {"resource": "secrets"}
CASES = (
    Case("all is sealed by one key", SEALED, 2 * WEEK, {}),
    Case("a secret in the clear", CLEAR, 31, {"SecretsInTheClear": {}}),
    Case("a secret in the clear for a moment", CLEAR, 29, {}),
    Case("two keys for a week", BY_TWO, WEEK + HOUR, {"SeveralKeysInUse": OF_SECRETS}),
    Case("two keys while one is exchanged", BY_TWO, WEEK - HOUR, {}),
    Case("two keys of one plugin for a week", BY_TWO_IDS, WEEK + HOUR, {"SeveralKeysInUse": OF_SECRETS}),
    Case("a provider that isn't read", STRANGE, 61, {"UnreadableProvider": OF_SECRETS}),
    Case("counts that nobody brought up to date", SEALED, 92, {"AuditIsOld": {}}, is_fresh=False),
    Case("counts of an hour ago", SEALED, 59, {}, is_fresh=False),
    Case("no counts at all", {}, 31, {"AuditIsOld": {}}),
)


def test_of(case: Case, alerts: list[str]) -> dict:
    """A case as promtool reads it: of each rule whether it alerts then."""
    told = []
    for name in alerts:
        expected = [{"exp_labels": case.alerts[name]}] if name in case.alerts else []
        told.append({"eval_time": f"{case.minutes}m", "alertname": name, "exp_alerts": expected})
    series = [{"series": name, "values": values} for name, values in case.series().items()]
    return {"interval": f"{case.step}m", "input_series": series, "alert_rule_test": told}


def plain(rules: dict) -> dict:
    """The rules with what decides alone: promtool compares texts for people too."""
    for group in rules["groups"]:
        for rule in group["rules"]:
            del rule["annotations"]
            rule.pop("labels", None)
    return rules


def check(checks: Checks, file: Path, rules: dict, counts: str, room: Path) -> None:
    """`counts` is what an audit wrote, which must be of the series that the cases speak of."""
    done = call(["promtool", "check", "rules", file])
    checks.expect("promtool reads the rules", 0, done.status)
    if counts:
        done = call(["promtool", "check", "metrics"], counts.encode())
        checks.expect("promtool reads the counts without a word", (0, ""), (done.status, done.errors))
    names = [rule["alert"] for group in rules["groups"] for rule in group["rules"]]
    checks.expect("each rule has a case in which it alerts", set(names), {name for case in CASES for name in case.alerts})
    (room / "rules.json").write_text(json.dumps(plain(rules)), encoding="utf-8")
    for number, case in enumerate(CASES):
        test = room / f"test-{number}.json"
        asked = {"rule_files": ["rules.json"], "evaluation_interval": f"{case.step}m", "tests": [test_of(case, names)]}
        test.write_text(json.dumps(asked), encoding="utf-8")
        done = call(["promtool", "test", "rules", test], cwd=room)
        checks.expect(f"alerts: {case.name}", (0, ""), (done.status, "" if done.status == 0 else done.output.decode() + done.errors))
