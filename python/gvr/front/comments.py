"""The printed form with the comments of the text that it was made of."""
from typing import List

BLOCK_WORDS = ("end", "else", "except", "finally")


def carries(line: str) -> bool:
    """Whether the line is neither blank nor a comment."""
    return bool(line.strip(" ")) and not line.lstrip(" ").startswith("#")


def depth_before(line: str) -> int:
    """How far in a comment stands that comes before this line of the printed form: where the line ends or parts a block,
    inside of that."""
    indent = len(line) - len(line.lstrip(" "))
    return indent + 2 if line.split()[0] in BLOCK_WORDS else indent


def with_comments(text: str, printed: str) -> str:
    """The printed form, which has one line for each line of the text that carries something, with the comments of the
    text between them, each as far in as the line that follows."""
    left = printed.splitlines()
    lines: List[str] = []
    for line in text.splitlines():
        if carries(line):
            lines.append(left.pop(0))
        elif line.strip(" "):
            lines.append(" " * (depth_before(left[0]) if left else 0) + line.strip(" "))
    return "".join(f"{it}\n" for it in lines)
