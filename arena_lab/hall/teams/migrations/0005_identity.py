"""Teams that a sign-in makes."""
from django.db import migrations, models


class Migration(migrations.Migration):
    dependencies = [("teams", "0004_guests")]
    operations = [
        migrations.AddField(
            "team",
            "identity",
            models.CharField(editable=False, max_length=64, null=True, unique=True),
        )
    ]
