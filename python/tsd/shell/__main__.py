"""`python3 -m tsd.shell`."""

import sys

from tsd.shell.main import main

sys.exit(main())
