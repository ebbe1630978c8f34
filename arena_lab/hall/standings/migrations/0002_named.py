"""An unveiling names what it shows. Those of earlier halls have shown all there was of
the course's table."""
from typing import Any

from django.db import migrations, models
import django.db.models.deletion
import django.utils.timezone

WHAT = [("freeze", "what the freeze hides"), ("secret", "what came of the secret draw")]


def show_secret(apps: Any, editor: Any) -> None:
    """An earlier unveiling has shown the marks of programs too."""
    reveals = apps.get_model("standings", "Reveal").objects.using(
        editor.connection.alias
    )
    for at in list(reveals.values_list("at", flat=True)):
        reveals.create(at=at, what="secret")


class Migration(migrations.Migration):
    dependencies = [
        ("handins", "0002_contests"),
        ("standings", "0001_initial"),
    ]

    operations = [
        migrations.AddField(
            "reveal",
            "contest",
            models.ForeignKey(
                blank=True,
                null=True,
                on_delete=django.db.models.deletion.CASCADE,
                to="handins.contest",
                verbose_name="contest",
                help_text="empty for the table of the course",
            ),
        ),
        migrations.AddField(
            "reveal",
            "what",
            models.CharField(
                choices=WHAT,
                default="freeze",
                max_length=10,
                verbose_name="what is shown",
            ),
        ),
        migrations.AlterField(
            "reveal",
            "at",
            models.DateTimeField(default=django.utils.timezone.now, editable=False),
        ),
        migrations.RunPython(show_secret, migrations.RunPython.noop),
    ]
