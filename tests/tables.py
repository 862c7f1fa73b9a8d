"""Counts with a row and a column, and how they are shown."""

from collections import Counter

from checks import Checks

Table = Counter[tuple[str, str]]


def refused_sheet(number: int) -> list[str]:
    """The columns of a sheet that is refused with this number; a zero claim has one of its own."""
    return ["refused sheet", "zero claim"] if number == 18 else ["refused sheet"]


def check_counts(checks: Checks, title: str, table: Table, least: dict[str, int]) -> None:
    """Shows the counts, and demands of each column as many as are given."""
    print(shown(title, table, list(least)))
    for column, count in least.items():
        checks.at_least(f"{title}, {column}", count, column_total(table, column))


def shown(title: str, table: Table, columns: list[str]) -> str:
    """One line for each row in the order of its first count, and one for all; columns stand where a row has any."""
    rows = list(dict.fromkeys(row for row, _ in table))
    lines = [f"  {row}: {counted(table, row, columns)}" for row in rows]
    all_rows = {column: column_total(table, column) for column in columns}
    total = ", ".join(f"{column} {all_rows[column]:,}" for column in columns)
    return "\n".join([f"{title}: {total}", *lines])


def counted(table: Table, row: str, columns: list[str]) -> str:
    return ", ".join(f"{column} {table[row, column]:,}" for column in columns if table[row, column])


def column_total(table: Table, column: str) -> int:
    return sum(count for (_, other), count in table.items() if other == column)
