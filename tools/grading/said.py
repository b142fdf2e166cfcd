"""The object of JSON that HeapSafe says of a run, in the words of its lines."""

MEMBERS = {
    "kind": str,
    "word": str | None,
    "status": int,
    "own": bool,
    "file": str | None,
    "line": int | None,
    "source": str | None,
    "holder": dict | None,
    "freed": dict | None,
    "help": str | None,
    "limit": dict | None,
    "leaks": list,
}


def is_report(it: object) -> bool:
    """Whether this is an object that HeapSafe says of a run. It may have members that are not known here."""
    return (
        isinstance(it, dict)
        and all(name in it and isinstance(it[name], kind) for name, kind in MEMBERS.items())
        and all(isinstance(leak, dict) for leak in it["leaks"])
    )


def headline(report: dict) -> str:
    """The first line, as `bob.c:21: bad free: held`."""
    if report["own"]:
        return f"status {report['status']}"
    place = ":".join(str(report[name]) for name in ("file", "line") if report[name] is not None)
    return ": ".join(it for it in (place, report["kind"], report["word"]) if it)


def holder_words(holder: dict) -> str:
    """Where the pointer stands that is left, as `held by local names of main at 4`."""
    kind, name = holder.get("kind"), holder.get("name")
    unnamed = {"block": f"block of line {holder.get('line')}", "value": "a value"}
    words = f"held by {unnamed.get(kind) or f'{kind} {name}'}"
    words += f" of {holder['function']}" if holder.get("function") is not None else ""
    return words + (f" at {holder['offset']}" if holder.get("offset") is not None else "")


def freed_words(freed: dict) -> str:
    """The block that was freed, as `freed: block of line 4, 12 bytes`, or of how many it is one."""
    if freed.get("line") is not None:
        return f"freed: block of line {freed['line']}, {freed.get('bytes')} bytes"
    return f"freed: one of {freed.get('blocks')} blocks, {freed.get('bytes')} bytes together"


def leak_words(leak: dict) -> str:
    return f"leak: line {leak.get('line')}: {leak.get('blocks')} blocks, {leak.get('bytes')} bytes"


def plain(value: object) -> str:
    """A value of a member that is not known here."""
    if isinstance(value, dict):
        return ", ".join(f"{name} {plain(it)}" for name, it in value.items() if it is not None)
    return "; ".join(plain(it) for it in value) if isinstance(value, list) else str(value)


def further(report: dict) -> list[str]:
    """What HeapSafe says behind its first line and the source line."""
    told = [holder_words(report["holder"])] if report["holder"] else []
    told += [freed_words(report["freed"])] if report["freed"] else []
    told += [f"{name}: {plain(value)}" for name, value in report.items() if name not in MEMBERS and value not in (None, [], {}, "")]
    told += [f"help: {report['help']}"] if report["help"] else []
    if limit := report["limit"]:
        told.append(f"limit: {limit.get('value')} {limit.get('unit')}, raised by {limit.get('option')}")
    return told + [leak_words(leak) for leak in report["leaks"]]
