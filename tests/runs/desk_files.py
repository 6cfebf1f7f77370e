"""Desks in files: each status and line of the commands that work on one, files that are no desk, and logs beside none."""
import os
import subprocess

from runs.checked import Served

OFFICE = "aaaaaaaaaaaaaaaa"
CALL = (
    '{"company":"private","kind":"general","given":"2026-06-01","appointed":"2026-06-18T10:00:00",'
    '"record":"2026-06-16T18:00:00","resolutions":[["ordinary","Accounts"]]}'
)
# What `results` prints of a meeting that was called so.
CALLED = """meeting {}
company private
kind general
given 2026-06-01
appointed 2026-06-18T10:00:00
opened -
resolution 1 ordinary no poll
text Accounts
"""
FILES = {
    "keys.csv": "party,key\nOFFICE,aaaaaaaaaaaaaaaa\nZ,zzzzzzzzzzzzzzzz\n",
    "office.csv": "party,key\nOFFICE,aaaaaaaaaaaaaaaa\n",
    "twice.csv": "party,key\nZ,zzzzzzzzzzzzzzzz\nY,zzzzzzzzzzzzzzzz\n",
    "days.txt": "2026-04-06\n2026-04-03\n2026-04-06\n",
    "bad.txt": "2026-04-06\n3 April\n",
    "register.csv": 'member,kind,name,shares,paid\nM1,individual,"Ada, Countess",100,100\n',
    "bad.csv": "member,kind,name,shares,paid\nM1,person,Ada,100,100\n",
    "letter": "a letter\n",
}


def run(runs):
    for name, content in FILES.items():
        runs.write(name, content)
    commands(runs)
    links(runs)
    endless_inputs(runs)
    blank_files(runs)
    left_logs(runs)
    lines_not_printed(runs)


def commands(runs):
    runs.table("""
        # words                                                                   status  output   error

        # a desk is made once
        init ./desk                                                                    0  created  -
        init ./desk                                                                    3  -        NotEmpty

        # files are loaded, the same again is said to be so, and a fault loads nothing
        keys ./desk ./keys.csv                                                         0  loaded   -
        keys ./desk ./keys.csv                                                         0  same     -
        keys ./desk ./twice.csv                                                        3  -        Twice 3
        keys ./desk ./keys.csv                                                         0  same     -
        days ./desk ./days.txt                                                         0  loaded   -
        days ./desk --zone UTC0 ./days.txt                                             0  same     -
        days ./desk ./bad.txt                                                          3  -        BadRow 2 day
        register ./desk G1 2026-06-16T18:00:00 ./bad.csv                               3  -        BadRow 2 kind
        keys ./desk ./missing.csv                                                      3  -        ReadFault
        keys ./desk .                                                                  3  -        ReadFault

        # a meeting that there is not
        register ./desk G9 2026-06-16T18:00:00 ./register.csv                          1  -        refused 8 NoMeeting
        results ./desk G9                                                              1  -        refused 8 NoMeeting

        # words that are wrong, in their one order, and before the file
        keys ./desk                                                                    2  -        *
        register ./desk g1 today ./register.csv --zone nowhere                         2  -        meeting
        register ./desk G1 today ./register.csv --zone nowhere                         2  -        record
        register ./missing G1 2026-06-16T18:00:00 ./register.csv --zone nowhere        2  -        zone
        keys ./missing ./keys.csv --zone nowhere                                       2  -        zone
        results ./missing g1                                                           2  -        meeting

        # the desk comes before the file that is handed in
        keys ./missing ./missing.csv                                                   3  -        Store
        days ./missing ./days.txt                                                      3  -        Store
        register ./missing G1 2026-06-16T18:00:00 ./register.csv                       3  -        Store
        results ./missing G1                                                           3  -        Store
        init ./no/such/folder/desk                                                     3  -        Store
    """)
    made = [name for name in os.listdir(runs.room) if name.startswith("missing")]
    runs.holds(not made, f"files that were not there were made: {made}")
    runs.table("""
        # a file that is no database, and a folder
        keys ./letter ./keys.csv                                                       3  -        Store
        init ./letter                                                                  3  -        Store
        results . G1                                                                   3  -        Store
    """)


def links(runs):
    """A second name by a hard link, of the file or of its log, is refused; a symbolic one is no harm."""
    second = runs.path("second")
    for name in ("desk", "desk-wal"):
        os.link(runs.path(name), second)
        runs.ends("results ./desk G1", 3, error="Store")
        os.remove(second)
    os.symlink(runs.path("desk"), second)
    runs.ends("results ./second G1", 1, error="refused 8 NoMeeting")
    os.remove(second)


def endless_inputs(runs):
    runs.table("""
        keys ./desk /dev/zero                                                          3  -        ReadFault
        days ./desk /dev/zero                                                          3  -        ReadFault
        register ./desk G1 2026-06-16T18:00:00 /dev/zero                               3  -        ReadFault
    """)


def blank_files(runs):
    """Files of a single byte or none, which are left as they are by all but `init`; and who may read what it makes."""
    mask = os.umask(0o022)
    for size in (0, 1):
        runs.write("blank", "S" * size)
        runs.table("""
            keys ./blank ./keys.csv                                                    3  -        NotADesk
            days ./blank ./days.txt                                                    3  -        NotADesk
            register ./blank G1 2026-06-16T18:00:00 ./register.csv                     3  -        NotADesk
            results ./blank G1                                                         3  -        NotADesk
            serve ./blank --port 1                                                     3  -        NotADesk
        """)
        runs.stands("blank", size, 0o644)
        runs.holds(not os.path.exists(runs.path("blank-wal")), "a log was made beside a file that is no desk")
        runs.ends("init ./blank", output="created\n")
        runs.remove("blank")
    runs.ends("init ./blank", output="created\n")
    runs.stands("blank", None, 0o600)
    runs.stands("blank-wal", None, 0o600)
    os.umask(mask)

    # the name of the log that lies beside it is longer than a name may be
    name = "a" * 252
    runs.ends(f"init ./{name}", 3, error="Store")
    runs.holds(not os.path.exists(runs.path(name)), "a file was made under a name that the system refuses")


def left_logs(runs):
    """Logs beside no file, or beside one that is empty or a single byte: that of a desk is kept, whatever is asked, and one that
    holds nothing, or that a stopped `init` left, is in nobody's way."""
    runs.ends("init ./left", output="created\n")
    runs.ends("keys ./left ./keys.csv", output="loaded\n")
    runs.copy("left-wal", "ended-log")
    with Served(runs, "serve ./left --port PORT", 143) as served:
        served.answers("POST /m/S1/call", OFFICE, "200 OK", '{"ok":"called"}', CALL)
        served.stop()
    runs.copy("left-wal", "stopped-log")
    for log in ("ended-log", "stopped-log"):
        for size in (None, 0, 1):
            lies(runs, size, log)
            runs.refuses_all("Store", "./bare")
            runs.leaves("init ./bare", 3, "NotEmpty")
    lies(runs, 0, "stopped-log")
    os.symlink(runs.path("bare"), runs.path("leading"))
    runs.ends("results ./leading S1", 3, error="Store")
    runs.ends("init ./leading", 3, error="NotEmpty")
    is_kept = runs.read("bare") == b"" and runs.read("bare-wal") == runs.read("stopped-log")
    runs.holds(is_kept, "what a link leads to is not as it was")

    # the desk is whole with its own file
    runs.ends("results ./left S1", output=CALLED.format("S1"))
    empty_logs(runs)


def empty_logs(runs):
    """Logs that hold nothing: an empty one, and what `init` leaves where it is stopped before its file is written whole."""
    small = ["bash", "-c", 'ulimit -c 0 && ulimit -f 1 && exec "$@"', "", runs.program, "init", runs.path("half")]
    subprocess.run(small, stdin=subprocess.DEVNULL, stdout=subprocess.DEVNULL, stderr=subprocess.DEVNULL)
    runs.stands("half", 1024, 0o600)
    runs.stands("half-wal", 41, 0o600)
    runs.copy("half-wal", "begun-log")
    runs.write("first-log", "\0")
    runs.write("empty-log", "")
    runs.refuses_all("NotADesk", "./half")
    runs.ends("init ./half", output="created\n")
    for log in ("empty-log", "first-log", "begun-log"):
        for size in (0, 1):
            lies(runs, size, log)
            runs.refuses_all("NotADesk", "./bare")
            runs.ends("init ./bare", output="created\n")
            runs.ends("keys ./bare ./keys.csv", output="loaded\n")
        lies(runs, None, log)
        runs.leaves("results ./bare S1", 3, "Store")
        runs.ends("init ./bare", output="created\n")


def lies(runs, size, log):
    """./bare has so many bytes, or is not there (None), beside a copy of that log."""
    runs.remove("bare")
    if size is not None:
        runs.write("bare", "S" * size)
    runs.copy(log, "bare-wal")


def lines_not_printed(runs):
    """The line cannot be printed; what was loaded is loaded."""
    runs.ends("keys ./desk ./office.csv", 3, error="WriteFault", stdout="/dev/full")
    runs.ends("keys ./desk ./office.csv", output="same\n")
