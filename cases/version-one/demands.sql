-- Demands of a poll, and the poll that was ordered on them.
INSERT INTO meetings (meeting, company, kind, given, appointed, record, loaded, opened) VALUES ('G1', 'private', 'general', 20605, 1781776800, 1781632800, 0, NULL);
INSERT INTO resolutions (meeting, number, kind, body) VALUES ('G1', 1, 'ordinary', 'Accounts');
INSERT INTO resolutions (meeting, number, kind, body) VALUES ('G1', 2, 'special', 'New articles');
INSERT INTO appointments (meeting, member, number, proxy, first, last, instructions, moment) VALUES ('G1', 'M1', 1, 'X', 1, 90, '--', 1780390800);
DELETE FROM register WHERE meeting = 'G1';
INSERT INTO register (meeting, member, kind, name, shares, paid) VALUES ('G1', 'M1', 'individual', 'Ada', 90, 100);
INSERT INTO register (meeting, member, kind, name, shares, paid) VALUES ('G1', 'M2', 'individual', 'Bo', 10, 100);
INSERT INTO register (meeting, member, kind, name, shares, paid) VALUES ('G1', 'M3', 'individual', 'Cy', 900, 100);
UPDATE meetings SET loaded = 1 WHERE meeting = 'G1';
INSERT INTO presences (meeting, party, moment) VALUES ('G1', 'M1', 1781776800);
INSERT INTO presences (meeting, party, moment) VALUES ('G1', 'X', 1781776800);
INSERT INTO presences (meeting, party, moment) VALUES ('G1', 'M2', 1781776800);
UPDATE meetings SET opened = 1781776800 WHERE meeting = 'G1';
INSERT INTO demands (meeting, resolution, party, moment) VALUES ('G1', 1, 'M1', 1781776860);
INSERT INTO demands (meeting, resolution, party, moment) VALUES ('G1', 1, 'X', 1781776860);
INSERT INTO demands (meeting, resolution, party, moment) VALUES ('G1', 1, 'M2', 1781776860);
INSERT INTO polls (meeting, resolution, ordered, take, chair, started, closed, votes_for, votes_against, withheld, eligible) VALUES ('G1', 1, 1781777100, 1781777100, 0, NULL, NULL, NULL, NULL, NULL, NULL);
