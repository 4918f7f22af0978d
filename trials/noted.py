"""What a program writes, page by page: writes.c, by its notes."""
from stores import PAGE


def noted(trial, folder, *words, given=b""):
    """Runs the program. Returns how that ended, and its calls in order: ("page", number, bytes) and ("flush",)."""
    log = folder / "notes"
    log.unlink(missing_ok=True)
    ran = trial.run(*words, given=given, env={"LD_PRELOAD": str(trial.writes), "LOG": str(log)})
    text, calls, at = log.read_bytes() if log.exists() else b"", [], 0
    while at < len(text):
        kind, at = text[at:at + 1], at + 1
        if kind == b"F":
            calls.append(("flush",))
            continue
        number, at = int.from_bytes(text[at:at + 8], "little"), at + 8
        length = PAGE if kind == b"W" else number
        if kind == b"W":
            calls.append(("page", number // PAGE, text[at:at + length]))
        at += length
    return ran, calls


def laid(image, calls):
    """The bytes of a file after these calls."""
    image = bytearray(image)
    for call in calls:
        if call[0] == "page":
            image[PAGE * call[1]:PAGE * (call[1] + 1)] = call[2]
    return bytes(image)


def last_write(calls, pages):
    """Which call is the last that writes one of these pages, None if none does."""
    return max((at for at, call in enumerate(calls) if call[0] == "page" and call[1] in pages), default=None)
