"""The tables as they were first."""
import django.utils.timezone
from django.db import migrations, models
from django.db.models.deletion import CASCADE

ID = (
    "id",
    models.BigAutoField(
        auto_created=True, primary_key=True, serialize=False, verbose_name="ID"
    ),
)


class Migration(migrations.Migration):
    initial = True
    dependencies = [("teams", "0001_initial")]
    operations = [
        migrations.CreateModel(
            "HandIn",
            [
                ID,
                ("at", models.DateTimeField(default=django.utils.timezone.now)),
                ("name", models.CharField(max_length=80)),
                ("size", models.PositiveIntegerField()),
                ("files", models.PositiveIntegerField()),
                ("digest", models.CharField(max_length=64)),
                (
                    "team",
                    models.ForeignKey("teams.team", CASCADE, related_name="hand_ins"),
                ),
            ],
            {
                "verbose_name": "hand-in",
                "verbose_name_plural": "hand-ins",
                "ordering": ["-pk"],
            },
        ),
        migrations.CreateModel(
            "Grading",
            [
                ID,
                (
                    "state",
                    models.CharField(db_index=True, default="waiting", max_length=10),
                ),
                ("runs", models.PositiveSmallIntegerField(default=0)),
                ("holder", models.CharField(blank=True, default="", max_length=40)),
                ("until", models.DateTimeField(blank=True, null=True)),
                ("asked", models.DateTimeField(default=django.utils.timezone.now)),
                ("begun", models.DateTimeField(blank=True, null=True)),
                ("ended", models.DateTimeField(blank=True, null=True)),
                ("fault", models.CharField(blank=True, default="", max_length=300)),
                ("is_secret", models.BooleanField(default=False)),
                ("solved", models.PositiveIntegerField(default=0)),
                ("matches", models.PositiveIntegerField(default=0)),
                ("moves", models.PositiveIntegerField(default=0)),
                ("lost", models.PositiveIntegerField(default=0)),
                ("networks", models.JSONField(default=dict)),
                (
                    "hand_in",
                    models.ForeignKey(
                        "handins.handin", CASCADE, related_name="gradings"
                    ),
                ),
            ],
            {
                "verbose_name": "grading",
                "verbose_name_plural": "gradings",
                "ordering": ["-pk"],
                "unique_together": {("hand_in", "is_secret")},
            },
        ),
    ]
