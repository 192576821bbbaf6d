"""Processes with a limit of seconds, whose use of time and memory is told."""
import os
import signal
import time


def wait(process, limit):
    """Waits for a process, and kills it after `limit` seconds. Returns its status, its usage, and whether it was killed."""
    end, killed = time.monotonic() + limit, False
    while True:
        pid, status, usage = os.wait4(process.pid, os.WNOHANG)
        if pid:
            process.returncode = os.waitstatus_to_exitcode(status)
            return process.returncode, usage, killed
        if time.monotonic() > end and not killed:
            os.kill(process.pid, signal.SIGKILL)
            killed = True
        time.sleep(0.002)
