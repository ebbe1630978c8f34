"""Announcements, and questions of teams with their answers. Tries are granted no more:
a team may have a deadline of its own. Names of teams do not begin with a hyphen: a
program for tables would take their tokens for formulas."""
import django.utils.timezone
from django.core.validators import RegexValidator
from django.db import migrations, models
from django.db.models.deletion import CASCADE


class Migration(migrations.Migration):
    dependencies = [("teams", "0001_initial")]
    operations = [
        migrations.DeleteModel("Grant"),
        migrations.AlterField(
            "team",
            "name",
            models.CharField(
                help_text="1 to 16 characters out of a to z, 0 to 9 and -, which does not come first",
                max_length=16,
                unique=True,
                validators=[RegexValidator("^[a-z0-9][a-z0-9-]{0,15}$")],
                verbose_name="name",
            ),
        ),
        migrations.CreateModel(
            "Message",
            [
                (
                    "id",
                    models.BigAutoField(
                        auto_created=True,
                        primary_key=True,
                        serialize=False,
                        verbose_name="ID",
                    ),
                ),
                (
                    "at",
                    models.DateTimeField(
                        default=django.utils.timezone.now, editable=False
                    ),
                ),
                ("text", models.TextField(max_length=2000, verbose_name="text")),
                (
                    "answer",
                    models.TextField(
                        blank=True, max_length=2000, verbose_name="answer"
                    ),
                ),
                (
                    "is_public",
                    models.BooleanField(
                        default=False,
                        help_text="all teams see the question once it has an answer",
                        verbose_name="for all",
                    ),
                ),
                (
                    "team",
                    models.ForeignKey(
                        "teams.team",
                        CASCADE,
                        blank=True,
                        null=True,
                        help_text="empty for an announcement",
                    ),
                ),
            ],
            {
                "verbose_name": "message",
                "verbose_name_plural": "messages",
                "ordering": ["-pk"],
            },
        ),
    ]
