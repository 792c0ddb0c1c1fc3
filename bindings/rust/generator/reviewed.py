"""The list of what was looked at by a person, reviewed.txt: a row that nothing needs any more is an error."""
from .tokens import Refused

KINDS = ("unused", "variable-fonts", "program", "unread", "unwrap")


class Reviewed:
    """The rows, by kind, file and name."""

    def __init__(self, path):
        self.path, self.rows, self.used = path, {}, set()
        if not path.is_file():
            return
        for number, line in enumerate(path.read_text(encoding="utf-8").splitlines(), 1):
            if not line.strip() or line.startswith("#"):
                continue
            head, sign, reason = line.partition(": ")
            words = head.split()
            if len(words) != 3 or not sign or words[0] not in KINDS or tuple(words) in self.rows:
                raise Refused(f"{path}:{number}: a row is KIND FILE NAME: REASON, once")
            self.rows[tuple(words)] = (number, reason)

    def reason(self, kind, file, name):
        """The reason of a row; None where there is none."""
        row = self.rows.get((kind, file, name))
        if row is None:
            return None
        self.used.add((kind, file, name))
        return row[1]

    def check(self):
        """Fails where a row wasn't needed."""
        for row, (number, _) in self.rows.items():
            if row not in self.used:
                raise Refused(f"{self.path}:{number}: there is no {row[2]} in {row[1]} for which a row is needed")
