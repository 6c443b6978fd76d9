"""Where a program spends its instructions, by callgrind (Debian's valgrind). The scripts beside it use it."""
import os
import re
import shutil
import subprocess

ROW = re.compile(r"^ *([0-9,]+) \([^)]*\) +(?:[^\s:]+:)?(\S+)", re.M)


def can_tell():
    if not shutil.which("valgrind"):
        print("valgrind is missing (the Debian package valgrind), so no shares are told")
        return False
    return True


def command(folder, words):
    """The command that runs these words under callgrind, which writes into the folder at the end."""
    return ["valgrind", "--tool=callgrind", f"--callgrind-out-file={os.path.join(folder, 'callgrind')}", *words]


def tell(folder, title, parts):
    """Prints the share of each part: what the functions of these names cost with all that they call, less
    those whose names are written with a minus in front."""
    table = ["callgrind_annotate", "--inclusive=yes", "--threshold=100", os.path.join(folder, "callgrind")]
    text = subprocess.run(table, check=True, capture_output=True, text=True).stdout
    rows = [(int(row.group(1).replace(",", "")), row.group(2)) for row in ROW.finditer(text)]
    whole = max(cost for cost, _ in rows)

    def cost_of(word):
        return max((cost for cost, name in rows if name.partition("::<")[0] == word.lstrip("-")), default=0)

    print(f"{title}: {whole:,} instructions")
    for part, words in parts.items():
        cost = sum(-cost_of(word) if word.startswith("-") else cost_of(word) for word in words)
        print(f"  {part}: {100 * cost / whole:.1f} of 100")
