"""A host: it runs the programs of a component manager in sandboxes, and connects what they use."""
