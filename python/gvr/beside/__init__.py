"""A runtime beside gvr: the same scenario by the model and by a real runtime, compared event by event."""
