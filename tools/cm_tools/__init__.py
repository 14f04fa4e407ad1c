"""What the tools beside the component manager share. Python's standard library alone."""
