"""`python -m frameq` runs the program, with the arguments and streams given."""
from ._program import run_found

if __name__ == "__main__":
    run_found()
