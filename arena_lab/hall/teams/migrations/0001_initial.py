"""The tables as they were first."""
import django.utils.timezone
from django.core.validators import RegexValidator
from django.db import migrations, models
from django.db.models.deletion import CASCADE

ID = (
    "id",
    models.BigAutoField(
        auto_created=True, primary_key=True, serialize=False, verbose_name="ID"
    ),
)


class Migration(migrations.Migration):
    initial = True
    operations = [
        migrations.CreateModel(
            "Entry",
            [
                ID,
                (
                    "at",
                    models.DateTimeField(
                        db_index=True, default=django.utils.timezone.now
                    ),
                ),
                ("who", models.CharField(max_length=40)),
                ("what", models.CharField(max_length=300)),
            ],
            {
                "verbose_name": "line of the log",
                "verbose_name_plural": "log",
                "ordering": ["-at", "-pk"],
            },
        ),
        migrations.CreateModel(
            "Switch",
            [
                ID,
                (
                    "network",
                    models.CharField(
                        max_length=60, unique=True, verbose_name="network"
                    ),
                ),
                ("is_open", models.BooleanField(default=True, verbose_name="open")),
            ],
            {
                "verbose_name": "network",
                "verbose_name_plural": "networks",
                "ordering": ["network"],
            },
        ),
        migrations.CreateModel(
            "Team",
            [
                ID,
                (
                    "name",
                    models.CharField(
                        help_text="1 to 16 characters out of a to z, 0 to 9 and -",
                        max_length=16,
                        unique=True,
                        validators=[RegexValidator("^[a-z0-9-]{1,16}$")],
                        verbose_name="name",
                    ),
                ),
                (
                    "display",
                    models.CharField(
                        blank=True, max_length=80, verbose_name="display name"
                    ),
                ),
                (
                    "hidden",
                    models.BooleanField(
                        default=False,
                        help_text="is in no standings that teams see",
                        verbose_name="hidden",
                    ),
                ),
                ("digest", models.CharField(blank=True, editable=False, max_length=64)),
                ("generation", models.PositiveIntegerField(default=0, editable=False)),
            ],
            {
                "verbose_name": "team",
                "verbose_name_plural": "teams",
                "ordering": ["name"],
            },
        ),
        migrations.CreateModel(
            "Grant",
            [
                ID,
                (
                    "kind",
                    models.CharField(
                        choices=[("rated", "rated attempt"), ("hand-in", "hand-in")],
                        max_length=10,
                    ),
                ),
                (
                    "network",
                    models.CharField(
                        blank=True,
                        help_text="of a rated attempt",
                        max_length=60,
                        verbose_name="network",
                    ),
                ),
                ("at", models.DateTimeField(default=django.utils.timezone.now)),
                ("team", models.ForeignKey("teams.team", CASCADE)),
            ],
            {"verbose_name": "one more try", "verbose_name_plural": "more tries"},
        ),
    ]
