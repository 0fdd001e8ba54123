"""The points of bench/records."""
