"""Names of objects, and the labels that are made from them."""
