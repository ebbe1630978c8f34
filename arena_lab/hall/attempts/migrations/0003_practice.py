"""Matches over sockets are practice: rated series and contests of earlier halls are
kept as such."""
import sys
from typing import Any

from django.db import migrations, models


def say(apps: Any, editor: Any) -> None:
    """Says once, in the log too, what became of matches that counted."""
    alias = editor.connection.alias
    attempts = apps.get_model("attempts", "Attempt").objects.using(alias)
    count = attempts.exclude(kind="practice").count()
    if count:
        text = f"{count} rated attempts and matches of contests are practice now: only hand-ins are ranked"
        entries = apps.get_model("teams", "Entry").objects.using(alias)
        entries.create(who="hall", what=text)
        print(f"hall: {text}", file=sys.stderr, flush=True)


class Migration(migrations.Migration):
    dependencies = [
        ("attempts", "0002_traps"),
        ("teams", "0001_initial"),
    ]

    operations = [
        migrations.RunPython(say, migrations.RunPython.noop),
        migrations.RemoveIndex("attempt", "attempts_at_team_id_45b7fa_idx"),
        migrations.RemoveField("attempt", "kind"),
        migrations.RemoveField("attempt", "contest"),
        migrations.RemoveField("attempt", "series"),
        migrations.RemoveField("attempt", "traps"),
        migrations.RemoveField("attempt", "counts"),
        migrations.RemoveField("match", "is_trap"),
        migrations.DeleteModel("Contest"),
        migrations.AddIndex(
            "attempt", models.Index(fields=["team", "asked"], name="attempts_of_team")
        ),
        migrations.AlterModelOptions(
            "attempt",
            {
                "ordering": ["-pk"],
                "verbose_name": "match",
                "verbose_name_plural": "matches",
            },
        ),
    ]
