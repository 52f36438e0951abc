"""The companion of fffuu: it asks the program and shows what it said. It proves nothing."""
import os
import subprocess

FOLDER = os.path.dirname(os.path.realpath(__file__))
NOTE = ("fffuu-view asks the program fffuu and shows what it said. The answers of fffuu are proved; "
        "fffuu-view itself, and how it lays them out, is not.")


def version() -> str:
    """What `git describe --always` said when it was installed, or says in this checkout."""
    try:
        with open(os.path.join(FOLDER, "VERSION"), encoding="ascii") as kept:
            return kept.read().strip()
    except OSError:
        pass
    try:
        told = subprocess.run(["git", "-C", FOLDER, "describe", "--tags", "--always", "--dirty"], capture_output=True, text=True)
    except OSError:
        return "unknown"
    return told.stdout.strip() or "unknown"
