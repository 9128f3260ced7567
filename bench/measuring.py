"""What the measurements share."""

import os
import subprocess
import sys


def processor_time(command, source, sink=os.devnull, errs=None, statuses=(0,)):
    """The seconds of processor time of one run, user and system, that ends with one of these statuses."""
    with open(source, "rb") as given, open(sink, "wb") as out:
        try:
            process = subprocess.Popen(command, stdin=given, stdout=out, stderr=errs)
        except FileNotFoundError:
            sys.exit(f"there is no program {command[0]}; ./l2 --build builds l2 and l2cell")
        _, status, usage = os.wait4(process.pid, 0)
        process.returncode = os.waitstatus_to_exitcode(status)
    if process.returncode not in statuses:
        sys.exit(f"{command[0]}: exit code {process.returncode}")
    return usage.ru_utime + usage.ru_stime
