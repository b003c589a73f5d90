"""Runs a program, and says behind what it puts how much memory of it was resident at most, looked at every 5 ms. Its status is
the program's, and 128 and the number where a signal ended it."""
import re
import subprocess
import sys
import time

program, peak = subprocess.Popen(sys.argv[1:]), 0
while program.poll() is None:
    try:
        with open(f"/proc/{program.pid}/status") as status:
            found = re.search(r"VmHWM:\s*(\d+)", status.read())
        peak = int(found[1]) if found else peak
    except OSError:
        pass
    time.sleep(0.005)
print(f"peak {peak} KB")
sys.exit(program.returncode if program.returncode >= 0 else 128 - program.returncode)
