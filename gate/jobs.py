"""How many calls of the program a script makes at a time: JOBS of the environment, or as many as there are processors."""
import os

JOBS = int(os.environ.get("JOBS", len(os.sched_getaffinity(0))))
