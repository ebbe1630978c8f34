"""Copies the rows of a hall between databases of any kind, and counts them. Django has
begun."""
import contextlib
import itertools
import pathlib
from typing import Any, Dict, Iterator, List

from django.apps import apps
from django.core.management import call_command
from django.core.management.color import no_style
from django.db import connection, connections, transaction

from arena_lab.hall.manifests import summary_of

# the alias of a database of SQLite that is open beside the hall's own
COPY = "copy"
# rows that are copied at once
BATCH = 500
SNAPSHOT = "SET TRANSACTION ISOLATION LEVEL REPEATABLE READ, READ ONLY"
OTHERS = (
    "SELECT count(*) FROM pg_stat_activity WHERE datname = current_database() "
    "AND pid <> pg_backend_pid() AND usesysid IS NOT NULL"
)
MIGRATIONS = "django_migrations"


def database_name() -> str:
    """Names the hall's database, without a password."""
    settings = connection.settings_dict
    if connection.vendor == "sqlite":
        return str(settings["NAME"])
    host = f"{settings['HOST'] or 'localhost'}:{settings['PORT'] or 5432}"
    return f"postgresql://{settings['USER']}@{host}/{settings['NAME']}"


def migrate(alias: str = "default") -> None:
    """Makes the tables of this version."""
    call_command("migrate", database=alias, verbosity=0, interactive=False)


@contextlib.contextmanager
def open_copy(path: pathlib.Path) -> Iterator[None]:
    """Opens a file of SQLite as COPY, with the tables of this version."""
    connections.databases[COPY] = {
        **connections.databases["default"],
        "ENGINE": "arena_lab.hall.sqlite",
        "NAME": str(path),
        "OPTIONS": {},
    }
    try:
        migrate(COPY)
        yield
    finally:
        connections[COPY].close()
        del connections[COPY], connections.databases[COPY]


def copy(source: str, target: str) -> None:
    """Replaces all rows of the target database by those of the source; a fault changes
    nothing."""
    kinds: List[Any] = [
        kind
        for kind in apps.get_models(include_auto_created=True)
        if not kind._meta.proxy
    ]
    operations = connections[target].ops
    tables = [kind._meta.db_table for kind in kinds]
    with transaction.atomic(using=target):
        execute(target, operations.sql_flush(no_style(), tables))
        for kind in kinds:
            rows = kind._base_manager.using(source).order_by("pk").iterator(BATCH)
            while batch := list(itertools.islice(rows, BATCH)):
                kind._base_manager.using(target).bulk_create(batch)
        execute(target, operations.sequence_reset_sql(no_style(), kinds))


def execute(alias: str, statements: List[str]) -> None:
    with connections[alias].cursor() as cursor:
        for statement in statements:
            cursor.execute(statement)


def dump(path: pathlib.Path) -> None:
    """Writes the hall's database, as it stands at one moment, into a new file of
    SQLite."""
    if connection.vendor == "sqlite":
        with connection.cursor() as cursor:
            cursor.execute("VACUUM INTO %s", [str(path)])
        return
    with open_copy(path), transaction.atomic():
        execute("default", [SNAPSHOT])
        copy("default", COPY)


def differences(summary: Dict[str, Any]) -> List[str]:
    """Returns what the hall's database has otherwise than a summary says. A later
    version may have changed rows, but no tokens."""
    with connection.cursor() as cursor:
        present = set(connection.introspection.table_names(cursor))
        tables = sorted(present & set(summary["rows"]))
        now = summary_of(cursor, tables)
    result = [] if now["tokens"] == summary["tokens"] else ["tokens"]
    if now["rows"].get(MIGRATIONS) == summary["rows"].get(MIGRATIONS):
        result += [
            name
            for name, count in summary["rows"].items()
            if now["rows"].get(name) != count
        ]
    return result


def tables_with_rows() -> List[str]:
    """Returns the tables of the hall's database that have rows."""
    with connection.cursor() as cursor:
        tables = connection.introspection.table_names(cursor)
        rows = summary_of(cursor, tables)["rows"]
    return [table for table, count in rows.items() if count]


def other_users() -> int:
    """Returns how many connections others have to the hall's PostgreSQL."""
    with connection.cursor() as cursor:
        cursor.execute(OTHERS)
        return int(cursor.fetchone()[0])
