"""Files in which runs record what they have seen: a line for each crate, with some words. Nobody
writes a line by hand."""
import fcntl
import os
import tempfile

from repository import ROOT


class Records:
    """Holds a file of the repository, and its head."""

    def __init__(self, file, head):
        self.file, self.head = file, head

    def rows(self, root=ROOT):
        """Returns the words of each crate's line."""
        if not os.path.isfile(f"{root}/{self.file}"):
            return {}
        with open(f"{root}/{self.file}", encoding="utf-8") as lines:
            rows = [line.split() for line in lines if line.strip() and not line.startswith("#")]
        return {crate: tuple(words) for crate, *words in rows}

    def write(self, crate, words):
        """Writes the line of a crate, or removes it if there are no words. Other runs may do so at
        the same time."""
        os.makedirs(f"{ROOT}/build", exist_ok=True)
        with open(f"{ROOT}/build/{os.path.basename(self.file)}.lock", "w", encoding="utf-8") as lock:
            fcntl.flock(lock, fcntl.LOCK_EX)
            rows = self.rows()
            rows.pop(crate, None)
            rows.update({crate: words} if words else {})
            with tempfile.NamedTemporaryFile("w", encoding="utf-8", dir=f"{ROOT}/build", delete=False) as file:
                file.write(self.head + "".join(f"{it} {' '.join(map(str, words))}\n" for it, words in sorted(rows.items())))
            os.chmod(file.name, 0o644)
            os.replace(file.name, f"{ROOT}/{self.file}")
