"""What the subcommands of tools/orch are made of: each module with HELP, add_arguments and run is one of them."""
