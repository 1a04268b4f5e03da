"""Runs of version 3, about values of any bytes (docs/VERSION-3.md, a draft): beside versions 1 and 2, whose modules stay."""
