"""Workers announce themselves."""
from django.db import migrations, models


class Migration(migrations.Migration):
    dependencies = [("attempts", "0004_beats")]
    operations = [
        migrations.CreateModel(
            "Worker",
            [
                (
                    "id",
                    models.BigAutoField(
                        auto_created=True,
                        primary_key=True,
                        serialize=False,
                        verbose_name="ID",
                    ),
                ),
                ("name", models.CharField(max_length=8, unique=True)),
                ("contact", models.DateTimeField()),
            ],
        )
    ]
