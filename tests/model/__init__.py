"""An independent model of the whole program: its compiler and its machine, in Python. README.md here tells of its parts."""
