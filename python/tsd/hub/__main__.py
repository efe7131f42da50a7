"""`python3 -m tsd.hub`."""

import sys

from tsd.hub.main import main

sys.exit(main())
