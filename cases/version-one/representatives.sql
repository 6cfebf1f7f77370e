-- Two representatives of a corporation, and a vote that is said again, up to what is declared.
INSERT INTO meetings (meeting, company, kind, given, appointed, record, loaded, opened) VALUES ('G1', 'private', 'general', 20605, 1781776800, 1781632800, 0, NULL);
INSERT INTO resolutions (meeting, number, kind, body) VALUES ('G1', 1, 'ordinary', 'Accounts');
INSERT INTO resolutions (meeting, number, kind, body) VALUES ('G1', 2, 'special', 'New articles');
INSERT INTO authorities (meeting, corporation, person, moment) VALUES ('G1', 'C', 'R', 1780390800);
INSERT INTO authorities (meeting, corporation, person, moment) VALUES ('G1', 'C', 'S', 1780390801);
DELETE FROM register WHERE meeting = 'G1';
INSERT INTO register (meeting, member, kind, name, shares, paid) VALUES ('G1', 'C', 'corporation', 'Works', 50, 100);
UPDATE meetings SET loaded = 1 WHERE meeting = 'G1';
INSERT INTO presences (meeting, party, moment) VALUES ('G1', 'R', 1781776800);
UPDATE meetings SET opened = 1781776800 WHERE meeting = 'G1';
INSERT INTO polls (meeting, resolution, ordered, take, chair, started, closed, votes_for, votes_against, withheld, eligible) VALUES ('G1', 1, 1781777100, 1781777100, 1, NULL, NULL, NULL, NULL, NULL, NULL);
UPDATE polls SET started = 1781777100 WHERE meeting = 'G1' AND resolution = 1;
INSERT INTO casts (meeting, resolution, voter, capacity, member, first, last, way, moment) VALUES ('G1', 1, 'R', 'rep', 'C', 1, 50, 'for', 1781777160);
INSERT INTO casts (meeting, resolution, voter, capacity, member, first, last, way, moment) VALUES ('G1', 1, 'S', 'rep', 'C', 41, 50, 'against', 1781777160);
INSERT INTO casts (meeting, resolution, voter, capacity, member, first, last, way, moment) VALUES ('G1', 1, 'S', 'rep', 'C', 41, 50, 'for', 1781777220);
UPDATE polls SET closed = 1781777280 WHERE meeting = 'G1' AND resolution = 1;
UPDATE polls SET votes_for = 50, votes_against = 0, withheld = 0, eligible = 50 WHERE meeting = 'G1' AND resolution = 1;
