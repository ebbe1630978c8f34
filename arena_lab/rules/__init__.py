"""The rules as a model in Python, what a match is made of, and the two engines that
play one."""
