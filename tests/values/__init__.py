"""Values and datasets by themselves."""
