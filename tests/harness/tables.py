"""Creates, reads and changes database files with Python's sqlite3."""

import os
import sqlite3

from .program import raise_difference


def database(*statements):
    """Executes SQL statements on an empty database, and returns the bytes of its file. Case files call this function."""
    connection = sqlite3.connect(":memory:")
    try:
        for statement in statements:
            connection.execute(statement)
        connection.commit()
        return connection.serialize()
    finally:
        connection.close()


def execute_sql(folder, name, statement):
    """Executes an SQL statement on a file and commits. Returns the rows, each as a str with a bar between its cells."""
    connection = sqlite3.connect(os.path.join(folder, name))
    try:
        rows = connection.execute(statement).fetchall()
        connection.commit()
        return ["|".join(str(cell) for cell in row) for row in rows]
    finally:
        connection.close()


def check_rows(location, folder, name, statement, expected):
    """Compares the rows that a statement returns with the expected rows. Raises CaseError if they differ."""
    rows = execute_sql(folder, name, statement)
    if rows != expected:
        raise_difference(f"{location}: {statement}", expected, rows)
