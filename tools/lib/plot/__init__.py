"""The pictures of tools/plot."""
