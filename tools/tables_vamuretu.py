"""The tables and lists of docs/REFERENCE.md and the schema docs/socket.schema.json, made of the sources of the program vamuretu.

tools/tables.py writes them, and compares them. What a key, a member of a line or a metric is, its comment or its help says in
the source. Of alarms, which the pages tell in their own words, only the names are compared.
"""
import json
import os
import re

from rust_types import types_of
from version import TOP, read

SOURCE = os.path.join(TOP, "vamuretu", "src")
REFERENCE = os.path.join(TOP, "docs", "REFERENCE.md")
SCHEMA = os.path.join(TOP, "docs", "socket.schema.json")
# The types of the two files, and whose they are.
FILES = {"NodeFile": "a node", "WatchFile": "a watcher"}
# What stands for a type in the column of values, and for a number by the end of its name.
VALUES = {"PathBuf": "path", "SocketAddr": "address and port", "IpAddr": "address", "Pin": "pin", "Id": "64 hexadecimal digits"}
VALUES |= {"String": "text", "bool": "true or false", "Orders": "table of numbers", "Value": "value", "Missed": "frame"}
UNITS = {"_ms": "milliseconds", "_us": "microseconds", "_s": "seconds", "_ppm": "millionths", "bytes": "bytes", "days": "days"}
# The least and the greatest number of a type. A greater one than 2^63 - 1 can't stand in TOML.
NUMBERS = {"u8": (0, 255), "u32": (0, 2**32 - 1), "u64": (0, None), "i64": (None, None)}
MOST = {"u8": "below 256", "u32": "below 2^32", "u64": "below 2^63"}
TYPES_OF_JSON = {"bool": "boolean", "String": "string", "SocketAddr": "string"}


def source(*names):
    return read(os.path.join(SOURCE, *names))


def inner(kind):
    """The type inside of a list, a box or one that need not be there."""
    found = re.fullmatch(r"(?:Option|Vec|Box)<(.+)>", kind)
    return inner(found[1]) if found else kind


def row(*cells):
    return "| " + " | ".join(cells) + " |"


def plural(word):
    return f"{word}es" if word.endswith("s") else f"{word}s"


def unit_of(item):
    """What a number counts."""
    return next((unit for end, unit in UNITS.items() if item.name.endswith(end)), "number")


# ---- the configuration


def types_of_files():
    """The types of the configurations."""
    return types_of(source("config.rs"))


def value_of(item, types):
    """What stands in the column of values."""
    kind = inner(item.type)
    if kind in types:
        return " or ".join(f'`"{it.name.lower()}"`' for it in types[kind].members)
    if item.has('deserialize_with = "moment"'):
        return "number or moment"
    told = VALUES.get(kind) or unit_of(item)
    return f"list of {plural(told)}" if item.type.startswith("Vec<") else told


def default_of(item):
    """What holds where the key is not there, or nothing if it is required."""
    told, named = item.parts().get("Default"), item.value_of("default")
    if named:
        return re.search(rf"fn {named}\(\) -> \w+ \{{\s*(\S+)\s*\}}", source("config.rs"))[1]
    may_lack = item.type.startswith("Option<") or item.has("(default)")
    return told or ("" if not may_lack else "0" if item.type in NUMBERS else "none")


def row_of_key(name, value, item):
    """The row of a table or a key: its name, its value with its bounds, and what it is."""
    parts, default = item.parts(), default_of(item)
    bounds = parts.get("Bounds") or ("" if item.has("deserialize_with") else MOST.get(item.type, ""))
    if default:
        value = f"{value}, optional" if default == "none" else f"{value}, else {default}"
    return row(name, f"{value}: {bounds}" if bounds else value, parts[""])


def rows_of_table(item, whose, types):
    """The row of a table, and those of its keys."""
    kind, is_list = inner(item.type), item.type.startswith("Vec<")
    name = f"[[{item.name}]]" if is_list else f"[{item.name}]"
    yield row_of_key(f"**`{name}`** of {whose}", "tables" if is_list else VALUES.get(kind, "table"), item)
    yield from (row_of_key(f"`{it.name}`", value_of(it, types), it) for it in (types[kind].members if kind in types else []))


def configuration():
    """A row for each table and each key, those of a node first."""
    types = types_of_files()
    tables = {whose: {it.name: it for it in types[name].members} for name, whose in FILES.items()}
    yield from (row("Key", "Value", "What it is"), "|---|---|---|")
    for name in dict.fromkeys(name for of in tables.values() for name in of):
        having = [whose for whose, of in tables.items() if name in of]
        yield from rows_of_table(tables[having[0]][name], "both" if len(having) > 1 else having[0], types)


# ---- the socket


# The types of members whose own members the page tells apart, and the members that it tells once of all objects.
TOLD_APART = ("Status", "Value", "Missed")
TOLD_ONCE = ("system", "run", "run_id")


def types_of_socket():
    """The types of requests and lines."""
    return types_of(source("node", "local.rs")) | types_of(source("node", "answers.rs")) | types_of(source("node", "worth.rs"))


def word_of(request):
    """What `ask` is in a request."""
    return request.value_of("rename") or request.name.lower()


def told_once(item):
    """The members of an object that the page tells once of all objects which tell of a system or of one of its runs."""
    names = [it.name for it in item.members]
    return [name for name in TOLD_ONCE if name in names] if "system" in names and item.name not in TOLD_APART else []


def with_told_once(told, item):
    """What stands in the column of values, with those members of an object that have no row."""
    names = ", ".join(f"`{it}`" for it in told_once(item))
    return f"{told} with {names}" if names else told


def spelled(item, types, in_request=False):
    """What stands in the column of values for a member."""
    kind = inner(item.type)
    told = VALUES.get(kind) or (with_told_once("object", types[kind]) if kind in types else unit_of(item))
    told = f"list of {plural(told)}" if item.type.startswith("Vec<") else told
    told = f"{told} or null" if item.type.startswith("Option<") and not item.has("skip_serializing_if") else told
    return f"{told}, or not there" if may_be_away(item, in_request) else told


def members_of(item, types, before=""):
    """The members of an object with their paths, and what is inside of them behind each."""
    for it in item.members:
        if it.name in told_once(item):
            continue
        path = f"{before}{it.name}{'[]' if it.type.startswith('Vec<') else ''}"
        yield path, it
        if inner(it.type) in types and inner(it.type) not in TOLD_APART:
            yield from members_of(types[inner(it.type)], types, f"{path}.")


def requests():
    """A row for each request, and for each member of it."""
    types = types_of_socket()
    yield from (row("Member", "Value", "What it is"), "|---|---|---|")
    for request in types["Request"].members:
        yield row("`ask`", f'`"{word_of(request)}"`', request.parts()[""])
        for it in request.members:
            yield row(f"`{it.name}`", spelled(it, types, True), it.parts()[""])


def lines():
    """A row for each line that a node writes, and for each member of it but those of the status."""
    types = types_of_socket()
    yield from (row("Member", "Value", "What it says"), "|---|---|---|")
    for line in types["Line"].members:
        (path, first), *others = members_of(line, types)
        yield row(f"**`{path}`**", with_told_once(spelled(first, types), line), line.parts()[""])
        yield from (row(f"`{path}`", spelled(it, types), it.parts()[""]) for path, it in others)


def status():
    """A row for each member of the status."""
    types = types_of_socket()
    yield from (row("Member", "Value", "What it says"), "|---|---|---|")
    for path, it in members_of(types["Status"], types):
        yield row(f"`{path}`", spelled(it, types), it.parts()[""])


def schema_of(kind, types):
    """The schema of a type."""
    if kind.startswith("Option<"):
        return {"oneOf": [schema_of(kind[len("Option<"):-1], types), {"type": "null"}]}
    if kind.startswith("Vec<"):
        return {"type": "array", "items": schema_of(kind[len("Vec<"):-1], types)}
    if inner(kind) in types:
        return {"$ref": f"#/$defs/{inner(kind).lower()}"}
    if kind in NUMBERS:
        bounds = zip(("minimum", "maximum"), NUMBERS[kind])
        return {"type": "integer", **{name: bound for name, bound in bounds if bound is not None}}
    return {"type": TYPES_OF_JSON[kind]}


def may_be_away(item, in_request):
    """Whether a member may lack where it would be null: in a request, or where it is not written then."""
    return item.type.startswith("Option<") and bool(in_request or item.has("skip_serializing_if"))


def object_of(item, types, **constant):
    """The schema of an object. A request has no members but those that it may have."""
    properties = {name: {"const": word} for name, word in constant.items()}
    properties |= {it.name: {"description": it.parts()[""], **schema_of(it.type, types)} for it in item.members}
    may_lack = [it.name for it in item.members if may_be_away(it, constant)]
    said = re.sub(r"\[([^\]]*)\]\([^)]*\)", r"\1", item.parts()[""])
    told = {"type": "object", "description": said, "properties": properties}
    told["required"] = [name for name in properties if name not in may_lack]
    return told | ({"additionalProperties": False} if constant or item.has("deny_unknown_fields") else {})


def schema():
    """The text of the schema."""
    types = types_of_socket()
    known = {name: it for name, it in types.items() if re.search(r"\bSerialize\b", " ".join(it.attributes)) and name != "Line"}
    told = {"$schema": "https://json-schema.org/draft/2020-12/schema", "title": "What is said at the socket of a node of vamuretu"}
    told["description"] = "A request or a line of docs/REFERENCE.md, which says what may change. tools/tables.py makes this file."
    told["oneOf"] = [{"$ref": "#/$defs/request"}, {"$ref": "#/$defs/line"}]
    told["$defs"] = {"request": {"oneOf": [object_of(it, types, ask=word_of(it)) for it in types["Request"].members]}}
    told["$defs"]["line"] = {"oneOf": [object_of(it, types) for it in types["Line"].members]}
    told["$defs"] |= {name.lower(): object_of(it, types) for name, it in known.items()}
    return json.dumps(told, indent=1) + "\n"


# ---- the metrics

# The ways in which the sources make a metric: its type, what its name begins with, and ends with. Behind it come the name and the
# help, and perhaps a label.
WAYS = {
    "make.counter": ("counter", "vamuretu_", ""), "make.counters": ("counter", "vamuretu_", ""),
    "make.gauge": ("gauge", "vamuretu_", ""), "make.gauges": ("gauge", "vamuretu_", ""),
    "make.seconds": ("gauge", "vamuretu_", "_seconds"), "make.histogram": ("histogram", "vamuretu_", "_seconds"),
    "vector": ("counter", "vamuretu_watch_", ""), "gauge": ("gauge", "vamuretu_watch_", ""),
    "gauges": ("gauge", "vamuretu_watch_", ""), "IntCounter::new": ("counter", "", ""), "HistogramOpts::new": ("histogram", "", ""),
}
MADE = re.compile(r'(?<![\w.])([\w:]+(?:\s*\.\w+)?)\(\s*"(\w+)",\s*("[^"]*"|\w+)(?:,\s*"(\w+)")?')
SOURCES_OF_METRICS = {"node": [("node", "counts.rs")], "watcher": [("watch", "mod.rs")]}
SHARED_METRICS = [("lines.rs",), ("metrics.rs",)]


def text_of(told, before):
    """A text: a literal, or a constant or a variable that stands before it."""
    literal = told if told.startswith('"') else re.findall(rf'\b{told}(?:: &str)? =\s*("[^"]*");', before)[-1]
    return re.sub(r"\\\n\s*", "", literal.strip('"'))


def metrics_in(text):
    """The metrics that a source makes, each with its type, label and help."""
    for found in MADE.finditer(text):
        way, name, told, label = found.groups()
        if known := WAYS.get(re.sub(r"\s", "", way)):
            kind, before, behind = known
            yield f"{before}{name}{behind}", kind, label or "", text_of(told, text[:found.start()])


def metrics_of(names):
    """The metrics that some sources make."""
    return [it for name in names for it in metrics_in(source(*name))]


def in_status(metric, kind):
    """The object of the status that has the number of a metric by the same name, or None."""
    types = types_of_socket()
    names = {re.sub(r"_[um]?s$", "", path.replace(".", "_")): path for path, _ in members_of(types["Status"], types)}
    path = names.get(re.sub(r"^vamuretu_|_total$|_seconds$", "", metric))
    return path.partition(".")[0] if path and "." in path and kind != "histogram" else None


def item_of_metric(metric, kind, label, said):
    """The item of a metric. Of a counter the name tells that it is one."""
    said = f"Histogram: {said[0].lower()}{said[1:]}" if kind == "histogram" else said
    return f"- `{metric}{{{label}}}`: {said}" if label else f"- `{metric}`: {said}"


def metrics_of_node():
    """An item for each metric of a node. Where the status has several numbers of one object, they have one, that of the first."""
    together = {}
    for it in metrics_of([*SOURCES_OF_METRICS["node"], *SHARED_METRICS]):
        together.setdefault(in_status(*it[:2]) or it[0], []).append(it)
    for which, told in together.items():
        if len(told) == 1:
            yield item_of_metric(*told[0])
        else:
            yield f"- {', '.join(f'`{metric}`' for metric, *_ in told)}: What `{which}` of [the status](#the-status) has by these names."


def metrics_of_watcher():
    """An item for each metric that a watcher has and a node has not."""
    yield from (item_of_metric(*it) for it in metrics_of(SOURCES_OF_METRICS["watcher"]))


def wrong_metrics():
    """The metrics whose name tells another type than theirs: that of a counter, and of no other, ends with _total."""
    for metric, kind, *_ in metrics_of([*SOURCES_OF_METRICS["node"], *SOURCES_OF_METRICS["watcher"], *SHARED_METRICS]):
        if (kind == "counter") != metric.endswith("_total"):
            yield f"vamuretu/src: {metric} is a {kind}, which docs/REFERENCE.md does not tell of its name"


# ---- the alarms


def named_in(page, heading):
    """The names in the first column of the table behind a heading."""
    section = page.partition(heading)[2].partition("\n## ")[0]
    rows = [line for line in section.splitlines() if line.startswith("| `") and not line.startswith("| `alarm`")]
    return {name for line in rows for name in re.findall(r"`([a-z-]+)`", line.split("|")[1])}


def raised_in(folder, way):
    """The alarms that the sources of a folder raise."""
    names = sorted(os.listdir(os.path.join(SOURCE, folder)))
    return {alarm for name in names if name.endswith(".rs") for alarm in re.findall(way, source(folder, name))}


def wrong_alarms():
    """The alarms that the page lacks, or has too many."""
    by_heading = [("## Alarms of a node\n", "node", r'\balarm = "([a-z-]+)"')]
    by_heading += [("## Alarms of a watcher\n", "watch", r'(?:of_run\(|of_node\(|Some\(\(|then\(\|\| \()\s*"([a-z-]+)"')]
    for heading, folder, way in by_heading:
        apart = named_in(read(REFERENCE), heading) ^ raised_in(folder, way)
        yield from (f"docs/REFERENCE.md: the alarm {name} is there or in the code alone" for name in sorted(apart))


# The tables and lists of the page, each by the heading that it stands behind.
TABLES = {
    "## The configuration": configuration,
    "### Requests": requests,
    "### Lines": lines,
    "### The status": status,
    "### Metrics of a node": metrics_of_node,
    "### Metrics of a watcher": metrics_of_watcher,
}


def wrong():
    """What is wrong with the sources: a key, a member or a metric that has no comment, and alarms that a page does not name."""
    for heading, rows in TABLES.items():
        yield from (f"vamuretu/src: a row behind {heading} has no comment: {it}" for it in rows() if it.endswith(("|  |", ": ")))
    yield from wrong_metrics()
    yield from wrong_alarms()
