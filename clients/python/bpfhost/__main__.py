# PYTHON_ARGCOMPLETE_OK
"""`python3 -m bpfhost`: the command."""

import sys

from bpfhost.command import main

sys.exit(main())
