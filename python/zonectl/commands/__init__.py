"""The subcommands: each module has `parser`, and `run`, which returns the exit status."""
