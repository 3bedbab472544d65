-- key 12 is inserted while its group moves, and so lies in A3 already; key 4 is the only one that moves
s1: CREATE RDAREA A1 ON bes1
s1: CREATE RDAREA A2 ON bes2
s1: CREATE TABLE T (K INTEGER, V VARCHAR(20)) HASH HASHA BY K IN (A1, A2)
s1: COMMIT
s1: INSERT INTO T VALUES (4, 'd')
s1: COMMIT
s1: CREATE RDAREA A3 ON bes1
s1: ALTER TABLE T ADD RDAREA A3
s1: COMMIT
s1: INSERT INTO T VALUES (12, 'm')
s1: COMMIT
p1: pdrbal -k share -t T -c 2 -n 400
