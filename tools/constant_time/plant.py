"""Plants a branch on the choice into `picked` of the file that is named. The arm has a division, since a compiler makes a choice of two
words at hand without a branch."""

import sys

OLD = "    x ^ ((x ^ y) & choice * u64::MAX)\n"
NEW = "    if choice == 1 { ((y as u128 * 7 + (x % 7) as u128) / 7) as u64 } else { x }\n"

path = sys.argv[1]
with open(path) as file:
    text = file.read()
if text.count(OLD) != 1:
    sys.exit(f"error: {path} has no line to plant a branch in")
with open(path, "w") as file:
    file.write(text.replace(OLD, NEW))
