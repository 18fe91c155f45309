"""The page of a program for a browser: one file that needs nothing else."""
