"""A tree of files as a mounted folder: what the calls of a file system mean over the program's command `files`."""
