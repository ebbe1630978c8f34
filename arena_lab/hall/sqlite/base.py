"""Django's backend of SQLite, with a journal that readers do not wait for, and
transactions that take the right to write at their beginning. One that read first and
wrote later could be refused in its middle."""
from typing import Any, Dict

from django.db.backends.sqlite3 import base


class DatabaseWrapper(base.DatabaseWrapper):
    """A connection."""

    def get_new_connection(self, conn_params: Dict[str, Any]) -> Any:
        connection = super().get_new_connection(conn_params)
        connection.execute("PRAGMA journal_mode = WAL")
        # what is committed stays whatever process is killed; a power cut may take the
        # last seconds
        connection.execute("PRAGMA synchronous = NORMAL")
        return connection

    def _start_transaction_under_autocommit(self) -> None:
        self.cursor().execute("BEGIN IMMEDIATE")
