"""Random orders for shell, of all kinds: in form and out of it, damaged, and at the limits."""
