"""Desks whose rows and tables sqlite altered: meetings put in by hand, unusual files that open, and those that are no desk."""
MEETINGS = """
INSERT INTO meetings (meeting, company, kind, given, appointed, record, loaded, opened)
VALUES ('G1', 'private', 'general', 10957, 948362400, 948218400, 0, NULL),
       ('G2', 'private', 'general', 10957, 32503679999, 32503679999, 0, NULL);
INSERT INTO resolutions (meeting, number, kind, body)
VALUES ('G1', 1, 'ordinary', 'Accounts'), ('G1', 2, 'special', 'New articles'), ('G2', 1, 'ordinary', 'Accounts');
"""
RESULTS = """meeting G1
company private
kind general
given 2000-01-01
appointed 2000-01-20T10:00:00
opened -
resolution 1 ordinary no poll
text Accounts
resolution 2 special no poll
text New articles
"""
ONE_MEETING = """
INSERT INTO meetings (meeting, company, kind, given, appointed, record, loaded, opened)
VALUES ('G1', 'private', 'general', 10957, 948362400, 948218400, 0, NULL);
INSERT INTO resolutions (meeting, number, kind, body) VALUES ('G1', 1, 'ordinary', 'Accounts');
"""
# Files that are desks all the same.
UNUSUAL = (
    "PRAGMA journal_mode = DELETE; PRAGMA page_size = 512; VACUUM",
    "PRAGMA journal_mode = DELETE; PRAGMA page_size = 65536; VACUUM",
    "PRAGMA journal_mode = DELETE",
    "PRAGMA journal_mode = TRUNCATE",
    "PRAGMA journal_mode = PERSIST; INSERT INTO closed VALUES (1)",
    "CREATE TABLE notes (text)",
    "CREATE TABLE notes (text PRIMARY KEY) WITHOUT ROWID",
    "CREATE VIEW callers AS SELECT party FROM keys",
    "CREATE INDEX keys_by_both ON keys (secret, party)",
    "DROP INDEX casts_by_voter; DROP INDEX presences2_by_party",
    "ALTER TABLE keys ADD COLUMN note TEXT",
    "ANALYZE",
)
# Rows that name no meeting, in each table; the last three are of tables that version 2 leaves empty.
DANGLING = (
    "register (meeting, member, kind, name, shares, paid) VALUES ('G9', 'M1', 'individual', 'Ada', 1, 1)",
    "resolutions (meeting, number, kind, body) VALUES ('G9', 1, 'ordinary', 'Accounts')",
    "appointments (meeting, member, number, proxy, first, last, instructions, moment) VALUES ('G9', 'M1', 1, 'P', 1, 1, '-', 1)",
    "endings (meeting, member, number, moment) VALUES ('G9', 'M1', 1, 1)",
    "authorities (meeting, corporation, person, moment) VALUES ('G9', 'C', 'R', 1)",
    "sessions (meeting, number, appointed) VALUES ('G9', 2, 1)",
    "presences2 (meeting, session, party, moment) VALUES ('G9', 1, 'M1', 1)",
    "demands2 (meeting, session, resolution, party, moment) VALUES ('G9', 1, 1, 'M1', 1)",
    "polls2 (meeting, session, resolution, ordered, take, chair) VALUES ('G9', 1, 1, 1, 1, 1)",
    "casts (meeting, resolution, voter, capacity, moment) VALUES ('G9', 1, 'M1', 'instructed', 1)",
    "presences (meeting, party, moment) VALUES ('G9', 'M1', 1)",
    "demands (meeting, resolution, party, moment) VALUES ('G9', 1, 'M1', 1)",
    "polls (meeting, resolution, ordered, take, chair) VALUES ('G9', 1, 1, 1, 1)",
)
# Tables that are no desk's.
NO_DESK = (
    "CREATE TRIGGER after_keys AFTER INSERT ON keys BEGIN DELETE FROM closed; END",
    "CREATE INDEX some_keys ON keys (party) WHERE secret > 1",
    "ALTER TABLE keys ADD COLUMN note TEXT DEFAULT 'none'",
    "UPDATE desk SET version = 3; INSERT INTO presences (meeting, party, moment) VALUES ('G9', 'M1', 1)",
)


def run(runs):
    """Alters the desk that desk_files has made, and copies of one of its own."""
    meetings(runs)
    runs.ends("init ./called", output="created\n")
    runs.ends("keys ./called ./office.csv", output="loaded\n")
    runs.sql("called", ONE_MEETING)
    unusual_files(runs)
    no_desks(runs)


def meetings(runs):
    """Meetings that are put into the tables, one of them long past and one far off; and versions and words that are no desk's."""
    runs.sql("desk", MEETINGS)
    runs.table("""
        # words                                                     status  output  error
        register ./desk G1 2000-01-18T18:00:00 ./register.csv            0  loaded  -
        register ./desk G1 2000-01-18T18:00:00 ./register.csv            0  same    -
        register ./desk G1 2000-01-18T18:00:01 ./register.csv            1  -       refused 19 OtherRecord
        register ./desk G2 2999-12-31T23:59:59 ./register.csv            1  -       refused 22 Early
    """)
    runs.ends("results ./desk G1", output=RESULTS)
    runs.ends("results ./desk G1", 3, error="WriteFault", stdout="/dev/full")
    runs.sql("desk", "UPDATE meetings SET opened = 948362400 WHERE meeting = 'G1'")
    runs.ends("register ./desk G1 2000-01-18T18:00:00 ./register.csv", 1, error="refused 20 Opened")
    runs.sql("desk", "UPDATE desk SET version = 3")
    runs.ends("keys ./desk ./office.csv", 3, error="NewerVersion")
    runs.sql("desk", "UPDATE desk SET version = 2; UPDATE meetings SET kind = 'monthly'")
    runs.ends("keys ./desk ./office.csv", 3, error="NotADesk")


def alter(runs, sql):
    """./altered becomes a copy of ./called that sqlite altered so."""
    runs.remove("altered")
    runs.copy("called", "altered")
    runs.sql("altered", sql)


def unusual_files(runs):
    for sql in UNUSUAL:
        alter(runs, sql)
        runs.ends("keys ./altered ./office.csv", output="same\n")
    alter(runs, "DROP TABLE closed; CREATE VIEW closed AS SELECT 1 AS day")
    runs.ends("keys ./altered ./office.csv", output="same\n")
    runs.ends("days ./altered ./days.txt", 3, error="Store")


def no_desks(runs):
    for columns in DANGLING:
        alter(runs, f"INSERT INTO {columns}")
        runs.ends("keys ./altered ./office.csv", 3, error="NotADesk")
    runs.sql("notes", "CREATE TABLE notes (text)")
    runs.ends("keys ./notes ./office.csv", 3, error="NotADesk")
    runs.ends("init ./notes", 3, error="NotEmpty")
    for sql in NO_DESK:
        alter(runs, sql)
        runs.ends("keys ./altered ./office.csv", 3, error="NotADesk")
    alter(runs, "UPDATE desk SET version = 3; DROP TABLE casts")
    runs.ends("keys ./altered ./office.csv", 3, error="NewerVersion")
