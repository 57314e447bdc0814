"""The numbers in the machine code of a program or library, and their neighbours.

For example, code that fails for a file of 1,234,567 bytes has `cmp $0x12d687,%rax`, or a subtraction of that number,
somewhere. So where a check tries each number that the code has, it meets the sizes at which the code does something
else, whatever it draws.
"""

import re
import subprocess

from checks.harness import CannotRun, has

OPERAND = re.compile(r"\$0x([0-9a-f]+)")
# A subtraction may be written as an address: `lea -0x12d687(%rax),%rcx`.
DISTANCE = re.compile(r"\blea +(-?)0x([0-9a-f]+)\((?!%rip)")
WIDTHS = (32, 64)


def numbers(path):
    """The numbers that are operands of the code, without their signs."""
    if not has("objdump"):
        raise CannotRun("objdump is needed to read machine code, and is not there")
    words = ["objdump", "-d", "--no-show-raw-insn", path]
    found = set()
    with subprocess.Popen(words, stdout=subprocess.PIPE, text=True) as ran:
        for line in ran.stdout:
            found.update(int(digits, 16) for digits in OPERAND.findall(line))
            found.update(int(digits, 16) for _, digits in DISTANCE.findall(line))
    # (a negative number is shown as the greatest ones of its width)
    return found | {(1 << width) - it for it in found for width in WIDTHS if it < 1 << width}


def sizes(path, most):
    """These numbers and their neighbours, from 1 up to `most`, rising."""
    near = {it + k for it in numbers(path) for k in (-1, 0, 1)}
    return sorted(it for it in near if 0 < it <= most)
