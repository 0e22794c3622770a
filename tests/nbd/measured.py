"""measured.py FILE COMMAND..: runs a command, and notes in the file how much memory it had at most, in KiB."""
import resource
import subprocess
import sys
from pathlib import Path

status = subprocess.call(sys.argv[2:])
Path(sys.argv[1]).write_text(str(resource.getrusage(resource.RUSAGE_CHILDREN).ru_maxrss))
sys.exit(status)
