"""What scripts that write files of cases share."""

import os
import sys


def write_or_check(path, text):
    """Writes a text into a file; with `--check` among the words it writes nothing, and ends the script where the file has another text."""
    if "--check" in sys.argv[1:]:
        with open(path, encoding="utf-8") as file:
            if file.read() != text:
                sys.exit(f"{path} is not what {sys.argv[0]} writes")
        return
    os.makedirs(os.path.dirname(path), exist_ok=True)
    with open(path, "w", encoding="utf-8") as file:
        file.write(text)
