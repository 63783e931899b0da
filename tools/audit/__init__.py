"""The audit of a module: small questions about a kill in its functions, made from their types, and what they come to."""
