"""Programs that run a scenario by a real runtime: trees as JSON lines in, events as JSON lines out."""
