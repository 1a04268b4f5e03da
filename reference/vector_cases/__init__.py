"""The vectors of docs/ROWS.md, a module for each kind of input."""
