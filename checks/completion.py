"""docs/lbk.bash compared with the output of scripts/completion, and tried in bash."""

import subprocess
import tempfile
from pathlib import Path

from checks.harness import TOP, has

FILE = TOP / "docs/lbk.bash"
# Words, the last of which is completed, and the completions.
ROWS = [
    ("", "mark show segment chunk replay help --help --version"),
    ("s", "show segment"),
    ("help ma", "mark"),
    ("mark --l", "--line-break --limit"),
    ("replay --", "--unicode --ucd --line-break --east-asian --category --emoji --kinds --profile --names --help"),
    ("replay --n", "--names"),
    ("mark --ucd f", "folder"),
    ("show --unicode ", "15.0"),
    ("mark --ucd folder f", "folder file"),
    ("mark --s", "--sign"),
    ("segment --s", ""),
    ("chunk --w", "--words"),
    ("chunk --most ", ""),
    ("segment --from ", ""),
    ("mark --sign ", ""),
    ("bogus ", ""),
]
TRIED = """. "$1"; shift
compopt() { :; }
COMP_WORDS=(lbk "$@") COMP_CWORD=$#
_lbk
printf '%s\\n' "${COMPREPLY[@]}"
"""


def run(tally, _arguments):
    made = subprocess.run([TOP / "scripts/completion"], capture_output=True, check=True).stdout
    tally.equal("docs/lbk.bash", FILE.read_bytes(), made)
    if not has("bash"):
        tally.leave_out("bash")
        return
    with tempfile.TemporaryDirectory() as room:
        (Path(room) / "folder").mkdir()
        (Path(room) / "file").touch()
        for line, wanted in ROWS:
            words = ["bash", "-c", TRIED, "bash", FILE, *line.split(" ")]
            ran = subprocess.run(words, cwd=room, capture_output=True, check=False)
            tally.equal(f"lbk {line}", sorted(ran.stdout.decode().split()), sorted(wanted.split()))
