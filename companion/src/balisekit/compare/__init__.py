"""Two releases of a line, compared group by group and field by field."""
