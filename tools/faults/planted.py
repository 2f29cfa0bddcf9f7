"""Plants bugs into a recording, for tools/faults/stops to find. Each turns a program's calls into
those of a program with that bug."""
from recorded import Answered, Moved, Opened, Removed, Synced, Wrote


def unsynced(*endings):
    """Never syncs files with such names."""

    def plant(calls, folder):
        files = {it.file for it in calls if isinstance(it, Opened) and is_named(it.name, endings)}
        return [it for it in calls if not (isinstance(it, Synced) and it.file in files - {folder})]

    return plant


def is_named(name, words):
    return any(name.endswith(it) or name.startswith(it) for it in words)


def sealed_unsynced(calls, _):
    """Syncs no log once there is a later one."""
    names, found = {}, []
    for it in calls:
        if isinstance(it, Opened) and it.name.endswith(".log"):
            names[it.file] = it.name
        if not (isinstance(it, Synced) and it.file in names and names[it.file] < max(names.values())):
            found.append(it)
    return found


def folder_unsynced(calls, folder):
    """Never syncs the folder."""
    return [it for it in calls if not (isinstance(it, Synced) and it.file == folder)]


def renaming_unsynced(calls, folder):
    """Doesn't sync the folder after the renaming of CURRENT, until another file's sync asks for
    it."""
    found, is_behind = [], False
    for it in calls:
        is_behind = isinstance(it, Moved) and it.new == "CURRENT" or is_behind and not isinstance(it, Opened)
        if not (is_behind and isinstance(it, Synced) and it.file == folder):
            found.append(it)
    return found


def current_removed(calls, _):
    """Removes CURRENT before its new file is renamed to it."""
    found, is_there = [], False
    for it in calls:
        if isinstance(it, Moved) and it.new == "CURRENT":
            found += [Removed("CURRENT")] if is_there else []
            is_there = True
        found.append(it)
    return found


def removed_early(*endings):
    """Moves an open's removals of such files before the renaming of CURRENT."""

    def plant(calls, _):
        found = list(calls)
        for at, it in enumerate(calls):
            if isinstance(it, Moved) and it.new == "CURRENT":
                end = next(place for place in range(at, len(calls)) if isinstance(calls[place], Answered))
                early = [it for it in calls[at:end] if isinstance(it, Removed) and is_named(it.name, endings)]
                found[at:end] = early + [it for it in calls[at:end] if it not in early]
        return found

    return plant


def logs_removed(calls, _):
    """Removes the logs that an open finds before CURRENT is renamed."""
    found, logs = [], []
    for it in calls:
        if isinstance(it, Moved) and it.new == "CURRENT":
            found += [Removed(name) for name in logs]
            logs = []
        if isinstance(it, Opened) and it.name.endswith(".log"):
            logs.append(it.name)
        found.append(it)
    return found


def log_rewritten(calls, _):
    """Has a write empty its log, and write all of it once more."""
    names, held, found = {}, {}, []
    for it in calls:
        if isinstance(it, Opened):
            names[it.file], held[it.file] = it.name, b""
        if isinstance(it, Wrote):
            held[it.file] += it.text
            if it.place and names[it.file].endswith(".log"):
                found += [Opened(names[it.file], it.file, True), Wrote(it.file, 0, held[it.file])]
                continue
        found.append(it)
    return found


def edit_first(calls, _):
    """Has a MANIFEST tell of a table before the table is written: each table's calls come after the
    next write to a MANIFEST."""
    files = {it.file: it.name for it in calls if isinstance(it, Opened)}
    found, late = [], []
    for it in calls:
        name = files.get(getattr(it, "file", None), "")
        if name.endswith(".ldb"):
            late.append(it)
            continue
        found.append(it)
        if isinstance(it, Wrote) and name.startswith("MANIFEST-") or isinstance(it, Answered):
            found += late
            late = []
    return found + late


def log_removed_early(calls, _):
    """Removes a log before the edit that makes it obsolete."""
    manifests = {it.file for it in calls if isinstance(it, Opened) and it.name.startswith("MANIFEST-")}
    found, edit = [], 0
    for it in calls:
        if isinstance(it, Wrote) and it.file in manifests:
            edit = len(found)
        if isinstance(it, Removed) and it.name.endswith(".log"):
            found.insert(edit, it)
        else:
            found.append(it)
    return found


PLANTS = {
    "a log is never synced": unsynced(".log"),
    "a log is never synced once there is one behind it": sealed_unsynced,
    "a table is never synced": unsynced(".ldb"),
    "a MANIFEST is never synced": unsynced("MANIFEST-"),
    "what becomes CURRENT is never synced": unsynced(".dbtmp"),
    "the folder is never synced": folder_unsynced,
    "the folder isn't synced behind the renaming of CURRENT": renaming_unsynced,
    "CURRENT is removed before it is renamed": current_removed,
    "the old MANIFEST is removed before CURRENT is renamed": removed_early("MANIFEST-"),
    "logs are removed before CURRENT is renamed": logs_removed,
    "a log is removed before the edit that has its table": log_removed_early,
    "a write empties its log and writes it anew": log_rewritten,
    "an edit comes before its table": edit_first,
}
