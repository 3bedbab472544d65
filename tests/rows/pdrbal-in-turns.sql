-- of groups 342 to 511 and 853 to 1023, which move, 426 and 874 have a key each and 483 has three; a turn is a batch or a finish
s1: CREATE RDAREA A1 ON bes1
s1: CREATE RDAREA A2 ON bes2
s1: CREATE TABLE T (K INTEGER, V VARCHAR(20)) HASH HASHA BY K IN (A1, A2)
s1: COMMIT
s1: INSERT INTO T VALUES (12, 'q')
s1: INSERT INTO T VALUES (-1593, 'q')
s1: INSERT INTO T VALUES (4, 'q')
s1: INSERT INTO T VALUES (1601, 'q')
s1: INSERT INTO T VALUES (3, 'q')
s1: COMMIT
s1: CREATE RDAREA A3 ON bes1
s1: ALTER TABLE T ADD RDAREA A3
s1: COMMIT
p1: pdrbal -k share -t T -c 2 -n 1
p1: pdrbal -k share -t T -c 2 -n 400
p1: pdrbal -k share -t T -c 2 -n 400
