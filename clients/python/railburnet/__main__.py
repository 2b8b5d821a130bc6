"""`python3 -m railburnet`."""
import sys

from .cli import main

sys.exit(main())
