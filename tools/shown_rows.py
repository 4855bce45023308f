# SPDX-License-Identifier: MIT
"""The screen that `escshow --json` prints, as rows of text, for comparisons with other screens."""


def trimmed(rows):
    """Rows with no spaces at their ends, and no empty ones at the end."""
    rows = [it.rstrip(" ") for it in rows]
    while rows and not rows[-1]:
        rows.pop()
    return rows


def shown_rows(shown, columns):
    """Returns the rows and the cursor of a screen of so many columns. A cell without a character is
    a space, and the second half of a wide one nothing."""
    rows = []
    for cells in shown["cells"]:
        row = [" "] * columns
        for cell in cells:
            row[cell["column"]] = cell["text"] or " "
            if cell.get("width") == 2:
                row[cell["column"] + 1] = ""
        rows.append("".join(row))
    return trimmed(rows), (shown["cursor"]["row"], shown["cursor"]["column"])
