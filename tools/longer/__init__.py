"""Long traces whose counts are reckoned as they are drawn."""
