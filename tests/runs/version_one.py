"""Desks of version 1: moved at their first opening, by whichever command, or refused and left as they were."""
import os
import shutil
import subprocess

from runs.checked import Ended, Served, shell_status, sqlite, sqlite3

CASES = "cases/version-one"
# What the proxy of poll-by-proxy may ask of its own.
PROXYS_OWN = (
    '{"authorised":[],"casts":[{"as":"proxy","from":1,"member":"M1","resolution":1,"to":40,"way":"for"},'
    '{"as":"proxy","from":61,"member":"M1","resolution":1,"to":100,"way":"for"}],"demands":[],"given":[],'
    '"meeting":"G1","ok":"mine","persons":[],"present":true,"received":[{"from":1,"governs":[[1,40],[61,100]],'
    '"instructions":["free","free"],"member":"M1","polls":[],"received":"2026-06-02T09:00:00","to":100}],"row":null}'
)
# Files that are desks all the same.
UNUSUAL = (
    "PRAGMA journal_mode = DELETE; PRAGMA page_size = 512; VACUUM",
    "PRAGMA journal_mode = DELETE; PRAGMA page_size = 65536; VACUUM",
    "PRAGMA journal_mode = DELETE",
    "PRAGMA journal_mode = TRUNCATE",
    "PRAGMA journal_mode = PERSIST; UPDATE polls SET chair = 0",
    "CREATE TABLE notes (text); DROP TABLE notes",
    "DROP INDEX casts_by_voter; CREATE INDEX casts_by_voter /* again */ ON casts(meeting, voter)",
    "ALTER TABLE presences ADD COLUMN note TEXT; ALTER TABLE presences DROP COLUMN note",
    "UPDATE presences SET seq = 9",
    "ANALYZE; DROP TABLE sqlite_stat1",
    "CREATE TABLE notes (text); VACUUM; DROP TABLE notes; VACUUM",
)
# Something stands beside what version 1's program made, or is missing, or was changed.
IN_THE_WAY = (
    "CREATE TABLE notes (text)",
    "CREATE TABLE notes (text PRIMARY KEY) WITHOUT ROWID",
    "CREATE VIEW callers AS SELECT party FROM keys",
    "CREATE INDEX keys_by_both ON keys (secret, party)",
    "DROP INDEX casts_by_voter; DROP INDEX demands_by_party",
    "DROP INDEX demands_by_party; CREATE INDEX demands_by_party ON demands (meeting, party)",
    "ALTER TABLE presences ADD COLUMN note TEXT",
    "ALTER TABLE desk ADD COLUMN note TEXT",
    "ANALYZE",
    "CREATE TABLE notes (text); VACUUM; DROP TABLE notes",
    "CREATE TABLE sessions (number)",
    "CREATE INDEX demands2_by_party ON keys (secret)",
    "CREATE VIEW presences2 AS SELECT party FROM keys",
    "CREATE TABLE notes (seq REFERENCES presences (seq)); INSERT INTO notes VALUES (1)",
    "CREATE TABLE notes (seq REFERENCES presences (seq) ON DELETE CASCADE); INSERT INTO notes VALUES (1)",
    "CREATE TABLE notes (seq REFERENCES demands (seq) ON DELETE SET NULL); INSERT INTO notes VALUES (NULL)",
    "CREATE TABLE notes (one, other, FOREIGN KEY (one, other) REFERENCES polls ON DELETE SET DEFAULT); INSERT INTO notes VALUES ('G1', 1)",
    "CREATE TABLE notes (seq REFERENCES presences (seq) DEFERRABLE INITIALLY DEFERRED); INSERT INTO notes VALUES (1)",
)
# Rows that are no office, and a trigger.
NO_OFFICE = (
    "INSERT INTO presences (meeting, party, moment) VALUES ('G9', 'M1', 1)",
    "INSERT INTO demands (meeting, resolution, party, moment) VALUES ('G9', 1, 'M1', 1)",
    "INSERT INTO polls (meeting, resolution, ordered, take, chair) VALUES ('G9', 1, 1, 1, 1)",
    "UPDATE polls SET started = NULL",
    "UPDATE presences SET moment = -2208988801",
    "UPDATE meetings SET loaded = 0",
    "UPDATE appointments SET number = number + 2",
    "CREATE TRIGGER after_keys AFTER INSERT ON keys BEGIN DELETE FROM closed; END",
)
# No version, or a table or column that is not there.
NO_VERSION = (
    "DROP TABLE presences",
    "ALTER TABLE demands DROP COLUMN moment",
    "INSERT INTO desk VALUES (2, 1)",
    "UPDATE desk SET version = 0",
    "UPDATE desk SET version = 2",
)
# Version 2 without one of its tables, or with a row in a table that it leaves empty.
NO_VERSION_2 = (
    "DROP TABLE sessions",
    "DROP TABLE presences2",
    "DROP TABLE demands2",
    "DROP TABLE polls2",
    "DROP TABLE polls",
    "INSERT INTO presences (meeting, party, moment) VALUES ('G1', 'M1', 1781776800)",
    "INSERT INTO demands (meeting, resolution, party, moment) VALUES ('G1', 1, 'M1', 1781776800)",
    "INSERT INTO polls (meeting, resolution, ordered, take, chair) VALUES ('G1', 2, 1781777100, 1781777100, 1)",
)


def run(runs):
    runs.write("both.csv", "party,key\nOFFICE,aaaaaaaaaaaaaaaa\nP,pppppppppppppppp\n")
    runs.write("none.txt", "")
    runs.ends("init ./new", output="created\n")
    old = Old(runs)
    moved_and_opened_again(runs, old)
    moved_by_any_command(runs, old)
    unusual_files(runs, old)
    refused(runs, old)
    refused_after(runs, old)
    not_writable(runs, old)
    short_of_room(runs, old)


class Old:
    """./old, a desk of version 1, and its rows as they were made."""

    def __init__(self, runs):
        self.runs, self.rows = runs, {}

    def make(self, name="poll-by-proxy", sql=""):
        """Writes it with the statements of version 1 itself, and then has sqlite alter it so."""
        self.runs.remove("old")
        made = "".join(text_of(f"{CASES}/{part}.sql") for part in ("tables", name))
        self.runs.sql("old", f"PRAGMA journal_mode = WAL;{made}")
        self.runs.sql("old", sql)
        self.rows = self.found()[1]

    def found(self):
        """The version of a copy, ./read, how many rows are in tables that version 2 leaves empty, and all rows of the desk."""
        self.runs.remove("read")
        for part in ("", "-wal"):
            if os.path.exists(self.runs.path(f"old{part}")):
                self.runs.copy(f"old{part}", f"read{part}")
        with sqlite(self.runs.path("read")) as database:
            ask = lambda text: database.execute(text).fetchall()
            version = ask("SELECT version FROM desk")
            is_old = version == [(1,)]
            left = [] if is_old else [ask(f"SELECT count(*) FROM {table}") for table in LEFT_EMPTY]
            return (version, left), {table: ask(text) for table, text in selects(is_old).items()}

    def is_of(self, version):
        """It is of this version, with the rows that were made; once moved, tables that version 2 leaves empty are empty."""
        self.runs.made += 1
        try:
            (found, left), rows = self.found()
        except sqlite3.Error as fault:
            return self.runs.holds(False, f"old desk: {fault}")
        is_moved = found == [(version,)] and all(count == [(0,)] for count in left)
        other = [table for table in rows if rows[table] != self.rows[table]]
        self.runs.holds(is_moved and not other, f"old desk: version {found}, not {version}, or rows left {left}, or other rows in {other}")


LEFT_EMPTY = ("sessions", "presences", "demands", "polls")


def selects(is_old):
    """What reads the rows of each table, each with its number; those of a meeting's session 1 in either version."""
    session, two = ("1", "") if is_old else ("session", "2")
    alike = ("keys", "closed", "meetings", "resolutions", "register", "appointments", "endings", "authorities", "casts")
    return {
        **{table: f"SELECT rowid, * FROM {table} ORDER BY rowid" for table in alike},
        "presences": f"SELECT seq, meeting, {session}, party, moment FROM presences{two} ORDER BY seq",
        "demands": f"SELECT seq, meeting, {session}, resolution, party, moment FROM demands{two} ORDER BY seq",
        "polls": f"SELECT rowid, meeting, {session}, resolution, ordered, take, chair, started, closed, votes_for, votes_against, "
        f"withheld, eligible FROM polls{two} ORDER BY rowid",
    }


def text_of(path):
    with open(path, encoding="utf-8") as file:
        return file.read()


def schema(runs, name):
    """The tables, indexes and views of a file, in their order."""
    with sqlite(runs.path(name)) as database:
        parts = "SELECT type, name, tbl_name, sql FROM sqlite_schema WHERE name <> 'sqlite_sequence' ORDER BY rowid"
        return repr(database.execute(parts).fetchall())


def moved_and_opened_again(runs, old):
    """Each gives the results of its meeting, when it is moved and when it is opened again, and has the tables of a new desk."""
    for name in ("poll-by-proxy", "representatives", "demands", "late-poll"):
        old.make(name)
        results = text_of(f"{CASES}/{name}.results")
        runs.ends("results ./old G1", output=results)
        old.is_of(2)
        runs.leaves("results ./old G1", 0, "", results, but_log=True)
        old.is_of(2)
        found = Ended(0, schema(runs, "read").encode(), b"")
        runs.compare(f"{name}, moved: its tables", found, 0, schema(runs, "new"))


def moved_by_any_command(runs, old):
    """By whichever command, even one that then fails; but not by wrong words, and not by `init`."""
    old.make()
    runs.leaves("results ./old g1", 2, "meeting")
    runs.leaves("init ./old", 3, "NotEmpty", but_log=True)
    runs.ends("keys ./old ./both.csv", output="same\n")
    old.is_of(2)
    old.make()
    runs.ends("days ./old ./none.txt", output="same\n")
    old.is_of(2)
    old.make()
    runs.ends("register ./old G1 2026-06-16T18:00:00 ./register.csv", 1, error="refused 20 Opened")
    old.is_of(2)
    old.make()
    runs.ends("keys ./old ./missing.csv", 3, error="ReadFault")
    old.is_of(2)
    old.make()
    with Served(runs, "serve ./old --port PORT --requests 1") as served:
        served.answers("GET /m/G1/mine", "pppppppppppppppp", "200 OK", PROXYS_OWN)
    old.is_of(2)


def unusual_files(runs, old):
    for sql in UNUSUAL:
        old.make(sql=sql)
        runs.ends("keys ./old ./both.csv", output="same\n")
        old.is_of(2)


def refused(runs, old):
    """Desks that are not moved, and left as they were."""
    for sql in IN_THE_WAY:
        old.make(sql=sql)
        runs.leaves("keys ./old ./both.csv", 3, "Store", but_log=True)
        old.is_of(1)
    old.make()
    runs.sql("old", "DROP TABLE closed; CREATE VIEW closed AS SELECT 1 AS day")
    runs.leaves("keys ./old ./both.csv", 3, "Store", but_log=True)
    old.make("demands", "UPDATE demands SET resolution = 3")
    for words in ("keys ./old ./office.csv", "days ./old ./days.txt", "register ./old G1 2026-06-16T18:00:00 ./register.csv",
                  "results ./old G1", "serve ./old --port 1"):
        runs.leaves(words, 3, "NotADesk", but_log=True)
    old.is_of(1)
    for sql in NO_OFFICE:
        old.make(sql=sql)
        runs.leaves("keys ./old ./both.csv", 3, "NotADesk", but_log=True)
        old.is_of(1)
    for sql in NO_VERSION:
        old.make()
        runs.sql("old", sql)
        runs.leaves("keys ./old ./both.csv", 3, "NotADesk", but_log=True)
    old.make()
    runs.sql("old", "UPDATE desk SET version = 3")
    for words in ("keys ./old ./both.csv", "results ./old G1"):
        runs.leaves(words, 3, "NewerVersion", but_log=True)


def refused_after(runs, old):
    """Desks that were moved, and then altered."""
    for sql in NO_VERSION_2:
        old.make()
        runs.ends("keys ./old ./both.csv", output="same\n")
        runs.sql("old", sql)
        runs.leaves("keys ./old ./both.csv", 3, "NotADesk", but_log=True)


def not_writable(runs, old):
    """A file that may not be written; root may write any, so then another user asks."""
    old.make()
    before = runs.read("old")
    other = [] if os.getuid() else ["setpriv", "--reuid", "65534", "--regid", "65534", "--clear-groups"]
    shutil.copyfile(runs.program, runs.path("program"))
    os.chmod(runs.room, 0o755)
    os.chmod(runs.path("program"), 0o755)
    os.chmod(runs.path("old"), 0o444)
    words = [*other, runs.path("program"), "results", runs.path("old"), "G1"]
    done = subprocess.run(words, stdin=subprocess.DEVNULL, capture_output=True)
    os.chmod(runs.room, 0o700)
    found = Ended(shell_status(done.returncode), done.stdout, done.stderr)
    runs.compare("desk results ./old G1, of a file that may not be written", found, 3, error="Store")
    runs.holds(runs.read("old") == before, "a file that may not be written was written")


def short_of_room(runs, old):
    """Files that may have so many kilobytes, and no more: it is moved whole, or not at all."""
    for size in (0, 1, 16, 48, 64, 96, 128, 192, 256, 1024):
        old.make()
        limited = ["bash", "-c", f"trap '' XFSZ && ulimit -f {size} && exec \"$@\"", ""]
        words = [*limited, runs.program, "results", runs.path("old"), "G1"]
        done = subprocess.run(words, stdin=subprocess.DEVNULL, capture_output=True)
        found = Ended(shell_status(done.returncode), done.stdout, done.stderr)
        what = f"desk results ./old G1, where files may have {size} kB"
        if done.returncode == 0:
            runs.compare(what, found, 0, text_of(f"{CASES}/poll-by-proxy.results"))
            old.is_of(2)
        else:
            runs.compare(what, found, 3, error="Store")
            old.is_of(1)
