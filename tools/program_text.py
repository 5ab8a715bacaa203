"""A program text in the making: statements with labels and comments, of which those that no path leads to are left
out."""

import re

ACTIONS = {"ABORTED": 0, "DROP": 1, "PASS": 2, "TX": 3}
SENT = (ACTIONS["PASS"], ACTIONS["TX"])
SHORT = 7  # letters of a label before its statement
COMMENT = 48  # the column of comments


def name_of(action: int) -> str:
    return next(name for name, number in ACTIONS.items() if number == action)


class Text:
    """The statements of the program text, each with its labels and a comment."""

    def __init__(self) -> None:
        self.rows: list[tuple[list[str], str, str]] = []
        self.labels: list[str] = []
        self.note = ""

    def put(self, statement: str) -> None:
        """Adds a statement; an empty one only keeps its comment in its place."""
        self.rows.append((self.labels, statement, self.note))
        self.labels, self.note = [], ""

    def mark(self, label: str) -> None:
        self.labels.append(label)

    def reached(self) -> set[int]:
        """The rows that a path from the first one leads to: the verifier refuses others."""
        place = {label: at for at, (labels, _, _) in enumerate(self.rows) for label in labels}
        seen: set[int] = set()
        todo = [0]
        while todo:
            at = todo.pop()
            if at in seen:
                continue
            seen.add(at)
            statement = self.rows[at][1]
            to = re.search(r"goto (\w+)$", statement)
            todo += [place[to[1]]] if to else []
            todo += [at + 1] if statement != "exit" and not statement.startswith("goto") else []
        return seen

    def __str__(self) -> str:
        seen = self.reached()
        rows = [row for at, row in enumerate(self.rows) if at in seen]
        named = {word for _, statement, _ in rows for word in re.findall(r"goto (\w+)$", statement)}
        lines: list[str] = []
        kept: list[str] = []
        for labels, statement, note in rows:
            kept += [label for label in labels if label in named]
            begin = ""
            if statement:
                is_beside = bool(kept) and len(kept[-1]) < SHORT
                lines += [f"{label}:" for label in (kept[:-1] if is_beside else kept)]
                begin = f"{kept[-1]}:" if is_beside else ""
                kept = []
            line = f"{begin:8}{statement}"
            lines.append(f"{line:{COMMENT}}# {note}" if note else line)
        return "\n".join(lines) + "\n"
