"""Scripts in a replicated log, and followers that run them; `tools/replicas` is the program."""
