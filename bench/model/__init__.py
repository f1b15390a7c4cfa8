"""What docs/DEFINITIONS.md and docs/FORMATS.md tell of `bulkhead run`, `check`, `lint`, `cut` and `summary`, once more in Python.

It shares nothing with the program: histories never forget, and every list is searched from its front. `random_settings` and
`random_lines` make settings and scripts, `layout` writes settings in the many ways of TOML, and `python3 -m model` compares
what the program and the model tell of them.
"""
