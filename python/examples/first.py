"""first.py: compares a master file with a zone transfer, and prints the records in which they differ."""
import sys
from pathlib import Path

import zonenorm

file, origin, transfer = sys.argv[1:]
try:
    ours = zonenorm.Zone.from_file(file, origin)
    theirs = zonenorm.Zone.from_transfer(Path(transfer).read_bytes())
except zonenorm.Refused as error:
    sys.exit(f"refused: {error}")
if ours == theirs:
    print(f"{ours.apex} serial {ours.serial}: the same {len(ours)} records")
else:
    print(zonenorm.diff(ours, theirs), end="")
    sys.exit(1)
