"""Where a process of a hall begins. Nothing of Django is imported before the hall is
known.

    python3 -m arena_lab.hall.entry FOLDER web ADDRESS DESCRIPTOR
    python3 -m arena_lab.hall.entry FOLDER worker NUMBER
"""
import importlib
import os
import sys

from arena_lab.hall.place import VARIABLE


def begin(folder: str) -> None:
    """Makes this process one of the hall of a folder."""
    import django
    from django.apps import apps

    os.environ[VARIABLE] = folder
    os.environ.setdefault("DJANGO_SETTINGS_MODULE", "arena_lab.hall.settings")
    if not apps.ready:
        django.setup()


if __name__ == "__main__":
    begin(sys.argv[1])
    importlib.import_module(f"arena_lab.hall.{sys.argv[2]}").main(*sys.argv[3:])
