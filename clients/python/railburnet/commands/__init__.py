"""The subcommands of `railburnet`, a module each: DESCRIPTION, `add_options` and `run`."""
