"""A service of a Compose file as the fields of a `service create`."""

from __future__ import annotations

from dataclasses import dataclass
import re

from compose_file.networks import DEFAULT, Network
from compose_file.ports import Port, read_ports
from compose_file.tree import Fault, Notes, Table, Value
from compose_file.words import A_DAY, Field, choice, count, duration, few, fields, name, number, size, thousandths

MOST_TASKS = 10_000
MOST_CPU = 1_000_000
MODES = ("replicated", "global", "replicated-job", "global-job")
WORKLOAD = re.compile(
    r"exit=(?P<after>[1-9][0-9]{0,7}):(?P<code>0|[1-9][0-9]{0,2})|reject|(?:prepare|start|stop)=(?P<ms>[1-9][0-9]{0,7})"
)
LABEL_NAME = r"[A-Za-z0-9][A-Za-z0-9_.-]{0,62}"
LABEL = re.compile(rf"(?i:(?:node|engine)\.labels)\.{LABEL_NAME}")
FIXED_KEY = r"(?i:node\.(?:id|hostname|role|platform\.os|platform\.arch))"
CONSTRAINT = re.compile(rf"({FIXED_KEY}|{LABEL.pattern})\s*(==|!=)\s*(\S.*?)")

RESERVATIONS: tuple[Field, ...] = (("cpus", "cpu", thousandths(MOST_CPU)), ("memory", "mem", size))
RESTART: tuple[Field, ...] = (
    ("condition", "restart", choice("none", "on-failure", "any")),
    ("delay", "restart-delay", duration),
    ("max_attempts", "restart-max", count),
    ("window", "restart-window", duration),
)
UPDATE: tuple[Field, ...] = (
    ("parallelism", "parallelism", count),
    ("delay", "update-delay", duration),
    ("monitor", "monitor", duration),
    ("failure_action", "failure", choice("pause", "continue", "rollback")),
    ("max_failure_ratio", "ratio", thousandths(1000)),
    ("order", "order", choice("stop-first", "start-first")),
)
# What an update goes by where nothing else is said.
UPDATE_DEFAULTS = {"parallelism": "1", "update-delay": "0", "monitor": "5000", "ratio": "0", "order": "stop-first"}


@dataclass(frozen=True)
class Service:
    """A service with its fields in the language's order."""

    name: str
    line: int
    image: str
    words: list[str]
    ports: list[Port]
    networks: list[str]


def mode(deploy: Table, notes: Notes) -> list[str] | None:
    """The mode with its count; none where the language hasn't the mode."""
    value, replicas = deploy.take("mode"), deploy.take("replicas")
    word = "replicated" if value is None else choice(*MODES)(value, notes)
    if word.startswith("global") and replicas is not None:
        raise Fault(replicas.line, f"{replicas.path}: a {word} service has no replicas")
    tasks = 1 if replicas is None else number(replicas, MOST_TASKS)
    if word == "replicated":
        return [] if replicas is None else [f"replicas={tasks}"]
    if word == "replicated-job":
        if replicas is not None and tasks == 0:
            raise Fault(replicas.line, f"{replicas.path}: a job without a task")
        return [f"job={tasks}/{tasks}"]
    if word == "global":
        return ["global"]
    assert value is not None
    notes.no_word(value, "the language has no jobs on each node; the service is left out")
    return None


def workload(service: Table) -> list[str]:
    """The language's own words of `x-workload`; without them a task runs for ever."""
    value = service.take("x-workload")
    words = value.text().split() if value else []
    kinds = [word.partition("=")[0].replace("reject", "exit") for word in words]
    for i, word in enumerate(words):
        match = WORKLOAD.fullmatch(word)
        ms, code = (int(match["after"] or match["ms"] or 0), int(match["code"] or 0)) if match else (A_DAY + 1, 0)
        if value and (ms > A_DAY or code > 255):
            why = f"{word!r} is none of exit=MS:CODE, reject, prepare=MS, start=MS, stop=MS"
            raise Fault(value.line, f"{value.path}: {why}")
        if value and kinds[i] in kinds[:i]:
            raise Fault(value.line, f"{value.path}: {word!r} says again what an earlier word said")
    return words


def constraints(value: Value | None, notes: Notes) -> list[str]:
    words = []
    for item in value.items() if value else []:
        match = CONSTRAINT.fullmatch(item.text().strip())
        if not match:
            raise Fault(item.line, f"{item.path}: {item.text()!r} is no constraint such as node.role==worker")
        if re.fullmatch(r"[A-Za-z0-9_.-]{1,63}", match[3]):
            words.append(f"constraint={match[1]}{match[2]}{match[3]}")
        else:
            notes.no_word(item, "the language has no such value; the constraint is left out")
    return few(value, words) if value else words


def preferences(value: Value | None, notes: Notes) -> list[str]:
    words = []
    for item in value.items() if value else []:
        table = item.table()
        spread = table.take("spread")
        notes.no_words(table)
        if spread is not None and LABEL.fullmatch(spread.text()):
            words.append(f"spread={spread.text()}")
        elif spread is not None:
            notes.no_word(spread, "the language spreads over labels of nodes and engines alone")
    return few(value, words) if value else words


def platform(value: Value | None, notes: Notes) -> list[str]:
    if value is None:
        return []
    system, _, rest = value.text().partition("/")
    architecture, _, variant = rest.partition("/")
    if not architecture or variant:
        notes.no_word(value, "the language has platforms of a system and an architecture")
    return [f"platform={name(value, system)}/{name(value, architecture)}"] if architecture else []


def placement(deploy: Table, system: list[str], notes: Notes) -> list[str]:
    table = deploy.take_table("placement")
    most = table.take("max_replicas_per_node")
    words = [*constraints(table.take("constraints"), notes), *preferences(table.take("preferences"), notes), *system]
    notes.no_words(table)
    return words if most is None else [*words, f"max-replicas={count(most, notes)}"]


def reservations(deploy: Table, notes: Notes) -> list[str]:
    resources = deploy.take_table("resources")
    words = fields(resources.take_table("reservations"), RESERVATIONS, notes)
    notes.no_words(resources)
    return words


def restart(service: Table, deploy: Table, notes: Notes) -> list[str]:
    """`restart_policy`; else the older `restart` of the service."""
    policy, older = deploy.take("restart_policy"), service.take("restart")
    if policy is not None:
        if older is not None:
            notes.no_word(older, "deploy.restart_policy goes before it")
        return fields(policy.table(), RESTART, notes)
    if older is None:
        return []
    match = re.fullmatch(r"(no|false|always|unless-stopped|on-failure)(?::([0-9]{1,18}))?", older.text())
    if not match or (match[2] and match[1] != "on-failure"):
        raise Fault(older.line, f"{older.path}: {older.text()!r} is none of no, always, unless-stopped, on-failure[:N]")
    condition = {"no": "none", "false": "none", "on-failure": "on-failure"}.get(match[1], "any")
    return [f"restart={condition}", *([f"restart-max={int(match[2])}"] if match[2] else [])]


def update(deploy: Table, notes: Notes) -> list[str]:
    """`update_config`. A rollback goes by it too, but can only pause; what `rollback_config` has else is named."""
    words = fields(deploy.take_table("update_config"), UPDATE, notes)
    rollback = deploy.take_table("rollback_config")
    does = UPDATE_DEFAULTS | dict(word.split("=") for word in words) | {"failure": "pause"}
    for key, word, read in UPDATE:
        value = rollback.take(key)
        if value is not None and read(value, notes) != does[word]:
            notes.no_word(value, f"a rollback goes by the settings of updates, here {word}={does[word]}")
    notes.no_words(rollback)
    return words


def network_keys(service: Table, networks: dict[str, Network], notes: Notes) -> list[str]:
    """The keys of the service's networks, each of which the file has."""
    value = service.take("networks")
    if value is None or not value.node.value:
        return [] if "network_mode" in service.entries else [DEFAULT]
    keys: dict[str, int] = {}
    entries = value.table().entries.items() if value.is_table() else [(item.text(), item) for item in value.items()]
    for key, entry in entries:
        if key in keys:
            raise Fault(entry.line, f"{entry.path}: the network {key} stands twice, first at line {keys[key]}")
        if key not in networks and key != DEFAULT:
            raise Fault(entry.line, f"{entry.path}: the file has no network {key}")
        keys[key] = entry.line
        if value.is_table():
            notes.no_words(entry.table())
    return few(value, list(keys))


def read_service(key: str, value: Value, networks: dict[str, Network], notes: Notes) -> Service | None:
    """The service; none where the language hasn't its mode."""
    service = value.table()
    deploy = service.take_table("deploy")
    image = service.take("image")
    keys = network_keys(service, networks, notes)
    ports = read_ports(service.take("ports"), notes)
    counted = mode(deploy, notes)
    words = [
        *workload(service),
        *reservations(deploy, notes),
        *placement(deploy, platform(service.take("platform"), notes), notes),
        *(f"net={networks[one].name if one in networks else one}" for one in keys),
        *restart(service, deploy, notes),
        *few(value, [port.word() for port in ports]),
        *update(deploy, notes),
    ]
    if image is not None:
        notes.no_word(image, "the language has no images; a comment keeps its name")
    notes.no_words(deploy)
    notes.no_words(service)
    if counted is None:
        return None
    return Service(name(value, key), value.line, image.text() if image else "", counted + words, ports, keys)
