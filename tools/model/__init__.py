"""The rules once more, from docs/RULES.md, without the proved code."""
