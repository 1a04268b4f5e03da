"""The definitions of docs/FORMATS.md and docs/PROTOCOL.md, a module for each subject."""
