"""How hypothesis tries examples: the same ones in each run, also on a busy machine. HYPOTHESIS_PROFILE=default tries new ones."""
from __future__ import annotations

import os

from hypothesis import settings

settings.register_profile("same", deadline=None, derandomize=True)
settings.load_profile(os.environ.get("HYPOTHESIS_PROFILE", "same"))
