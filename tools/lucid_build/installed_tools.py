#!/usr/bin/env python3
"""The command `lucid-tools` of an installation, and those beside it that link here. tools/install has put this file here, beside the package."""
import sys
from pathlib import Path

sys.dont_write_bytecode = True
sys.path.insert(0, str(Path(__file__).resolve().parent))
from copperfinch.command import main  # noqa: E402

sys.exit(main())
