"""Who has no token may write and try, if the teacher allows it."""
from django.db import migrations, models


class Migration(migrations.Migration):
    dependencies = [("teams", "0003_disk")]
    operations = [
        migrations.AddField(
            "team", "is_guest", models.BooleanField(default=False, editable=False)
        )
    ]
