"""The shortest march for a list: `tools/design` and what it is made of."""
