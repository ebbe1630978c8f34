"""What a grading leaves on the disk is counted."""
from django.db import migrations, models


class Migration(migrations.Migration):
    dependencies = [("handins", "0003_beats")]
    operations = [
        migrations.AddField("grading", "size", models.BigIntegerField(default=0))
    ]
