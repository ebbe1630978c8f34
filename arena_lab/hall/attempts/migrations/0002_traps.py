"""Matches of a rated series may be traps."""
from django.db import migrations, models


class Migration(migrations.Migration):
    dependencies = [("attempts", "0001_initial")]
    operations = [
        migrations.AddField(
            "attempt", "traps", models.PositiveSmallIntegerField(default=0)
        ),
        migrations.AddField("match", "is_trap", models.BooleanField(default=False)),
    ]
