"""The orders of the program shell (docs/ORDERS.md): words to calls of the rules, and answers to text."""
