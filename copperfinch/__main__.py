"""`python3 -m copperfinch`: the command `lucid-tools`."""
import sys

from .command import main

sys.exit(main())
