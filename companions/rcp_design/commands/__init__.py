"""The subcommands. Each module has an EXAMPLE, `add_arguments` and `run`, which gives the exit status."""
