"""A shop under Django, whose catalog is a dependency."""
