"""Runs a program, and prints the peak of its memory in KiB behind what it prints: python3 -m sizes.peak WORDS

This process stands between the trial and the program, since what a process took before it became the program
counts too.
"""

import resource
import subprocess
import sys

ended = subprocess.run(sys.argv[1:])
print(resource.getrusage(resource.RUSAGE_CHILDREN).ru_maxrss)
sys.exit(ended.returncode)
