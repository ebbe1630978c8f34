"""The tables as they were first."""
from typing import Any, List

import django.utils.timezone
from django.db import migrations, models
from django.db.models.deletion import CASCADE

ID = (
    "id",
    models.BigAutoField(
        auto_created=True, primary_key=True, serialize=False, verbose_name="ID"
    ),
)
WORK: List[Any] = [
    ID,
    ("state", models.CharField(db_index=True, default="waiting", max_length=10)),
    ("runs", models.PositiveSmallIntegerField(default=0)),
    ("holder", models.CharField(blank=True, default="", max_length=40)),
    ("until", models.DateTimeField(blank=True, null=True)),
    ("asked", models.DateTimeField(default=django.utils.timezone.now)),
    ("begun", models.DateTimeField(blank=True, null=True)),
    ("ended", models.DateTimeField(blank=True, null=True)),
    ("fault", models.CharField(blank=True, default="", max_length=300)),
]


class Migration(migrations.Migration):
    initial = True
    dependencies = [("teams", "0001_initial")]
    operations = [
        migrations.CreateModel(
            "Contest",
            [
                ID,
                ("network", models.CharField(max_length=60, verbose_name="network")),
                ("start", models.DateTimeField(verbose_name="start")),
                (
                    "minutes",
                    models.PositiveSmallIntegerField(
                        default=45, verbose_name="minutes"
                    ),
                ),
                ("is_made", models.BooleanField(default=False, editable=False)),
            ],
            {
                "verbose_name": "contest",
                "verbose_name_plural": "contests",
                "ordering": ["-start"],
            },
        ),
        migrations.CreateModel(
            "Attempt",
            [
                *WORK,
                ("network", models.CharField(max_length=60)),
                (
                    "kind",
                    models.CharField(
                        choices=[
                            ("practice", "practice"),
                            ("rated", "rated"),
                            ("contest", "contest"),
                        ],
                        max_length=10,
                    ),
                ),
                ("series", models.PositiveSmallIntegerField(default=1)),
                ("closing", models.BooleanField(default=False)),
                ("counts", models.BooleanField(default=True, verbose_name="counts")),
                ("size", models.BigIntegerField(default=0)),
                (
                    "contest",
                    models.ForeignKey(
                        "attempts.contest", CASCADE, blank=True, null=True
                    ),
                ),
                (
                    "team",
                    models.ForeignKey("teams.team", CASCADE, related_name="attempts"),
                ),
            ],
            {
                "verbose_name": "attempt",
                "verbose_name_plural": "attempts",
                "ordering": ["-pk"],
            },
        ),
        migrations.CreateModel(
            "Pages",
            [
                *WORK,
                (
                    "attempt",
                    models.OneToOneField(
                        "attempts.attempt", CASCADE, related_name="pages"
                    ),
                ),
            ],
            {"abstract": False},
        ),
        migrations.CreateModel(
            "Match",
            [
                ID,
                ("number", models.PositiveSmallIntegerField()),
                ("run", models.PositiveSmallIntegerField()),
                ("host", models.CharField(max_length=255)),
                ("port", models.PositiveIntegerField()),
                ("keys", models.JSONField()),
                ("map", models.JSONField(null=True)),
                ("since", models.DateTimeField(default=django.utils.timezone.now)),
                ("outcome", models.CharField(blank=True, default="", max_length=20)),
                ("moves", models.PositiveIntegerField(default=0)),
                ("lost", models.PositiveIntegerField(default=0)),
                (
                    "attempt",
                    models.ForeignKey(
                        "attempts.attempt", CASCADE, related_name="matches"
                    ),
                ),
            ],
            {
                "verbose_name": "match",
                "verbose_name_plural": "matches",
                "ordering": ["number"],
                "unique_together": {("attempt", "number")},
            },
        ),
        migrations.AddIndex(
            "attempt",
            models.Index(
                fields=["team", "network", "kind", "asked"],
                name="attempts_at_team_id_45b7fa_idx",
            ),
        ),
    ]
