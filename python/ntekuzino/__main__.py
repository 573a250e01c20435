"""python3 -m ntekuzino: the command."""
import sys

from .command import main

sys.exit(main())
