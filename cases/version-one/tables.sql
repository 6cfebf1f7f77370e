-- The tables and indexes of version 1, with the statements of the program that made them, in their order.
CREATE TABLE desk (one INTEGER NOT NULL PRIMARY KEY, version INTEGER NOT NULL) STRICT;
CREATE TABLE keys (party TEXT NOT NULL PRIMARY KEY, secret TEXT NOT NULL UNIQUE) STRICT;
CREATE TABLE closed (day INTEGER NOT NULL PRIMARY KEY) STRICT;
CREATE TABLE meetings (seq INTEGER PRIMARY KEY AUTOINCREMENT, meeting TEXT NOT NULL UNIQUE, company TEXT NOT NULL, kind TEXT NOT NULL, given INTEGER NOT NULL, appointed INTEGER NOT NULL, record INTEGER NOT NULL, loaded INTEGER NOT NULL, opened INTEGER) STRICT;
CREATE TABLE resolutions (meeting TEXT NOT NULL REFERENCES meetings (meeting), number INTEGER NOT NULL, kind TEXT NOT NULL, body TEXT NOT NULL, PRIMARY KEY (meeting, number)) STRICT;
CREATE TABLE register (meeting TEXT NOT NULL REFERENCES meetings (meeting), member TEXT NOT NULL, kind TEXT NOT NULL, name TEXT NOT NULL, shares INTEGER NOT NULL, paid INTEGER NOT NULL, PRIMARY KEY (meeting, member)) STRICT;
CREATE TABLE appointments (seq INTEGER PRIMARY KEY AUTOINCREMENT, meeting TEXT NOT NULL REFERENCES meetings (meeting), member TEXT NOT NULL, number INTEGER NOT NULL, proxy TEXT NOT NULL, first INTEGER NOT NULL, last INTEGER NOT NULL, instructions TEXT NOT NULL, moment INTEGER NOT NULL, UNIQUE (meeting, member, number)) STRICT;
CREATE TABLE endings (seq INTEGER PRIMARY KEY AUTOINCREMENT, meeting TEXT NOT NULL REFERENCES meetings (meeting), member TEXT NOT NULL, number INTEGER NOT NULL, moment INTEGER NOT NULL, UNIQUE (meeting, member, number)) STRICT;
CREATE TABLE authorities (seq INTEGER PRIMARY KEY AUTOINCREMENT, meeting TEXT NOT NULL REFERENCES meetings (meeting), corporation TEXT NOT NULL, person TEXT NOT NULL, moment INTEGER NOT NULL, UNIQUE (meeting, corporation, person)) STRICT;
CREATE TABLE presences (seq INTEGER PRIMARY KEY AUTOINCREMENT, meeting TEXT NOT NULL REFERENCES meetings (meeting), party TEXT NOT NULL, moment INTEGER NOT NULL, UNIQUE (meeting, party)) STRICT;
CREATE TABLE demands (seq INTEGER PRIMARY KEY AUTOINCREMENT, meeting TEXT NOT NULL REFERENCES meetings (meeting), resolution INTEGER NOT NULL, party TEXT NOT NULL, moment INTEGER NOT NULL, UNIQUE (meeting, resolution, party)) STRICT;
CREATE TABLE polls (meeting TEXT NOT NULL REFERENCES meetings (meeting), resolution INTEGER NOT NULL, ordered INTEGER NOT NULL, take INTEGER NOT NULL, chair INTEGER NOT NULL, started INTEGER, closed INTEGER, votes_for INTEGER, votes_against INTEGER, withheld INTEGER, eligible INTEGER, PRIMARY KEY (meeting, resolution)) STRICT;
CREATE TABLE casts (seq INTEGER PRIMARY KEY AUTOINCREMENT, meeting TEXT NOT NULL REFERENCES meetings (meeting), resolution INTEGER NOT NULL, voter TEXT NOT NULL, capacity TEXT NOT NULL, member TEXT, first INTEGER, last INTEGER, way TEXT, moment INTEGER NOT NULL) STRICT;
CREATE INDEX appointments_by_proxy ON appointments (meeting, proxy);
CREATE INDEX authorities_by_person ON authorities (meeting, person);
CREATE INDEX demands_by_party ON demands (meeting, party);
CREATE INDEX casts_by_voter ON casts (meeting, voter);
INSERT INTO desk (one, version) VALUES (1, 1);
