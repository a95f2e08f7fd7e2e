"""The kinds of system calls that the tables tell apart."""

# Which system calls each kind has that is counted apart, by their names.
KINDS = {
    "pwrites": ("pwrite64",),
    "preads": ("pread64",),
    "lengths, files": ("ftruncate", "openat", "unlink", "unlinkat", "close"),
    "statx": ("statx", "fstat", "newfstatat"),
    "output": ("write",),
    "input": ("read",),
}
