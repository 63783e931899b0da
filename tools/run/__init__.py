"""The script around the program, ./conc_run: which build runs, on what, held to what, and what helps below its answer."""
