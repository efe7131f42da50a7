"""`tsd-hub`: one disk for many processes, at a Unix socket."""
