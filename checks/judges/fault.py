"""What a judge of a play in virtual time finds wrong."""


class Fault(Exception):
    """Something is wrong: the rule that is broken, in a word, and what is told of it."""

    def __init__(self, kind: str, text: str) -> None:
        super().__init__(kind, text)
        self.kind, self.text = kind, text

    def __str__(self) -> str:
        return f"{self.text} [{self.kind}]"


def need(is_right: bool, kind: str, text: str) -> None:
    if not is_right:
        raise Fault(kind, text)
