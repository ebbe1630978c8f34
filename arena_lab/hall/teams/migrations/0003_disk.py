"""A team may have more room on the disk than the course gives."""
from django.db import migrations, models


class Migration(migrations.Migration):
    dependencies = [("teams", "0002_messages")]
    operations = [
        migrations.AddField(
            "team",
            "disk",
            models.PositiveIntegerField(
                blank=True,
                help_text="empty for what the course gives each team",
                null=True,
                verbose_name="MB of files",
            ),
        )
    ]
