"""`python -m shapefront`."""
import sys

from .entry import main

sys.exit(main())
