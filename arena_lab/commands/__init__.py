"""The lab's commands, a module each: its arguments, what it calls of the packages, what
it prints, and its exit status."""
