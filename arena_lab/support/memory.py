"""How much memory this machine has left."""
import pathlib
from typing import Optional

MEMINFO = pathlib.Path("/proc/meminfo")


def available() -> Optional[int]:
    """Returns how many bytes programs may take without others going short, or None
    where Linux does not say it."""
    try:
        lines = MEMINFO.read_text(encoding="ascii").splitlines()
    except OSError:
        return None
    return next(
        (
            int(line.split()[1]) * 1024
            for line in lines
            if line.startswith("MemAvailable:")
        ),
        None,
    )
