"""`python3 -m bpfhost.shards`: the command."""

import sys

from bpfhost.shards.command import main

sys.exit(main())
