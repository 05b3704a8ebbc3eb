"""The smallest of a failing script: lines are left out, ever fewer at once, while it still fails."""


def smallest(text, fails):
    """The text without each line that it fails without, so that none of those left can go alone."""
    lines = text.splitlines(keepends=True)
    count = max(1, len(lines) // 2)
    while True:
        left = without(lines, count, fails)
        if count == 1 and len(left) == len(lines):
            return b"".join(left)
        lines, count = left, max(1, count // 2)


def without(lines, count, fails):
    """The lines, with so many after one another left out wherever the others fail too."""
    place = 0
    while place < len(lines):
        others = lines[:place] + lines[place + count :]
        if fails(b"".join(others)):
            lines = others
        else:
            place += count
    return lines
