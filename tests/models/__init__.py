"""Plain models of the broker, and histories that are drawn and held against them."""
