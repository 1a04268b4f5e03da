"""What the reference answers to the calls of rows (docs/ROWS.md)."""
