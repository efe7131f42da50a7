"""`tsd-shell`: files on a disk, at a terminal or in a script, over the command `files` of the program."""
