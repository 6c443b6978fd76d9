"""What `tests/run` is made of: how cases are read, put to a program, and compared."""
