"""Contests are of programs, and teams may have deadlines of their own."""
from django.db import migrations, models
from django.db.models.deletion import CASCADE, PROTECT

ID = (
    "id",
    models.BigAutoField(
        auto_created=True, primary_key=True, serialize=False, verbose_name="ID"
    ),
)


class Migration(migrations.Migration):
    dependencies = [("handins", "0001_initial"), ("teams", "0001_initial")]
    operations = [
        migrations.CreateModel(
            "Contest",
            [
                ID,
                ("name", models.CharField(max_length=80, verbose_name="name")),
                ("networks", models.JSONField(verbose_name="networks")),
                ("start", models.DateTimeField(verbose_name="start")),
                ("end", models.DateTimeField(verbose_name="end")),
                (
                    "freeze",
                    models.DateTimeField(
                        blank=True,
                        null=True,
                        verbose_name="freeze",
                        help_text="from then on its table does not change for teams until you unveil it",
                    ),
                ),
            ],
            {
                "verbose_name": "contest",
                "verbose_name_plural": "contests",
                "ordering": ["-start"],
            },
        ),
        migrations.CreateModel(
            "Extension",
            [
                ID,
                ("until", models.DateTimeField(verbose_name="deadline")),
                (
                    "contest",
                    models.ForeignKey(
                        "handins.contest",
                        CASCADE,
                        blank=True,
                        null=True,
                        help_text="empty for the deadline of the course",
                    ),
                ),
                ("team", models.ForeignKey("teams.team", CASCADE)),
            ],
            {
                "verbose_name": "deadline of a team",
                "verbose_name_plural": "deadlines of teams",
                "ordering": ["-until"],
            },
        ),
        migrations.AddField(
            "handin",
            "contest",
            models.ForeignKey(
                "handins.contest",
                PROTECT,
                blank=True,
                null=True,
                related_name="hand_ins",
            ),
        ),
    ]
