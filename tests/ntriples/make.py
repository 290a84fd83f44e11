# Standard input under a name of N-Triples.
import os

os.symlink("/dev/stdin", "stdin.nt")
