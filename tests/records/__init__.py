"""The records of the test program, a module for each call. ../make_cases.py is the command."""
