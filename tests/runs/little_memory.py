"""Openings for which memory does not last: each ends with `Memory` and leaves the file as it was; its log, which holds nothing,
may be begun anew. The limit is that of the system on a process's addresses."""
from runs.checked import Ended

MIB = 1 << 20
# No opening takes so many MiB.
MOST = 2048
# How `results` ends, of a meeting that there is not, where the file was opened.
OPENED = Ended(1, b"", b"refused 8 NoMeeting\n")


def run(runs):
    """The file ./large is the one of a thousand members, which has the longest register."""
    runs.ends("init ./little", output="created\n")
    little = least(runs, "./little")
    with runs.limited(little * MIB):
        runs.ends("results ./little G9", 1, error="refused 8 NoMeeting")
        runs.refuses_all("Memory", "./large", but_log=True)
    runs.ends("results ./large G9", 1, error="refused 8 NoMeeting")


def least(runs, file):
    """The least number of MiB with which the program opens a file; with less it may not even begin."""
    for room in range(1, MOST):
        with runs.limited(room * MIB):
            if runs.found(f"results {file} G9") == OPENED:
                return room
    runs.holds(False, f"{file} is not opened with {MOST} MiB")
    return MOST

