"""Workers count in their work, and faults of the machine are counted."""
from django.db import migrations, models


class Migration(migrations.Migration):
    dependencies = [("attempts", "0003_practice")]
    operations = [
        migrations.RemoveField("attempt", "until"),
        migrations.AddField(
            "attempt", "faults", models.PositiveIntegerField(default=0)
        ),
        migrations.AddField("attempt", "beats", models.PositiveIntegerField(default=0)),
        migrations.AlterField(
            "attempt", "runs", models.PositiveIntegerField(default=0)
        ),
        migrations.RemoveField("pages", "until"),
        migrations.AddField("pages", "faults", models.PositiveIntegerField(default=0)),
        migrations.AddField("pages", "beats", models.PositiveIntegerField(default=0)),
        migrations.AlterField("pages", "runs", models.PositiveIntegerField(default=0)),
    ]
