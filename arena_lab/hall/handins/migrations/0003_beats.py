"""Workers count in their work, and faults of the machine are counted."""
from django.db import migrations, models


class Migration(migrations.Migration):
    dependencies = [("handins", "0002_contests")]
    operations = [
        migrations.RemoveField("grading", "until"),
        migrations.AddField(
            "grading", "faults", models.PositiveIntegerField(default=0)
        ),
        migrations.AddField("grading", "beats", models.PositiveIntegerField(default=0)),
        migrations.AlterField(
            "grading", "runs", models.PositiveIntegerField(default=0)
        ),
    ]
