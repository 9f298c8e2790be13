"""The cases of `detio faults` by the model: which outcomes of a log have some, and what is tried in place of each.

Written from docs/exploring.md, and not from the code.
"""
from detio_tools import model

# The errors that a call can meet, by the kind of its request.
ERRORS = {
    "open": "ENOENT EACCES EINTR EINVAL EIO",
    "listen": "EADDRINUSE EACCES EINVAL EIO",
    "connect": "ECONNREFUSED ECONNRESET ETIMEDOUT EADDRINUSE EACCES EINTR EINVAL EIO",
    "seek": "EINVAL EIO",
    "accept": "EAGAIN EINTR EIO",
    "shutdown": "EIO",
    "close": "EINTR EIO",
}
# And of a read or a write by the kind of its object too.
ERRORS_AT = {
    ("read", "host"): "EINTR EIO",
    ("read", "stream"): "EAGAIN EINTR ECONNRESET ETIMEDOUT EIO",
    ("write", "host"): "EINTR EPIPE EIO",
    ("write", "stream"): "EAGAIN EINTR EPIPE ECONNRESET EIO",
}


def places(run: model.Run) -> list[tuple[int, int, str | None]]:
    """The thread and the number of the last record that each call took, and the kind of the object that it went by."""
    last: dict[tuple[int, int], tuple[int, int, str | None]] = {}
    for (thread, number), (call, kind) in sorted(run.takers.items()):
        last[thread, call] = thread, number, kind
    return sorted(last.values(), key=lambda it: it[:2])


def tried(record: model.Record, kind: str | None, named: list[str], short: bool) -> list[str]:
    """What is tried in place of a record, as `detio faults` prints it."""
    word = model.KINDS[record.kind - 1]
    errors = named or (ERRORS.get(word) or ERRORS_AT[word, kind or ""]).split()
    own = model.ERRORS[record.status - 1] if record.status else None
    found = [f"fail {it}" for it in errors if it != own]
    if short and record.status == 0 and word in ("read", "write"):
        counts = {0, 1, record.value // 2, record.value - 1}
        found += [f"short {it}" for it in sorted(counts) if 0 <= it < record.value]
    return [f"{word} {it}" for it in found]


def cases(run: model.Run, named: list[str], short: bool) -> list[str]:
    """How the lines of all cases begin, in their order."""
    return [
        f"{thread} {number} {it}"
        for thread, number, kind in places(run)
        for it in tried(run.threads[thread].records[number], kind, named, short)
    ]
