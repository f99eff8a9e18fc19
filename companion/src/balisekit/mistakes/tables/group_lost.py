"""A group is missing.

In real life. The list was cut at a page, or a group was thought to belong to the neighbouring project.

Here. All rows of a group are taken out of the table.

For a train. Links announce a group that is not there, or nobody notices.
"""
from __future__ import annotations

from balisekit.mistakes.of_rows import groups_of, mistake_of, without

MISTAKE = mistake_of(__name__, __doc__, groups_of, without)
