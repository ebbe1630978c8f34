"""Tables of many matches, and reports of them."""
