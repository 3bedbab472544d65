-- a check of 11 steps, 141 finishes of 16, and 11 steps of a batch: key 4 is written in A3 and not yet taken out of A1
s1: CREATE RDAREA A1 ON bes1
s1: CREATE RDAREA A2 ON bes2
s1: CREATE TABLE T (K INTEGER, V VARCHAR(20)) HASH HASHA BY K IN (A1, A2)
s1: COMMIT
s1: INSERT INTO T VALUES (2, 'b')
s1: INSERT INTO T VALUES (4, 'd')
s1: COMMIT
s1: CREATE RDAREA A3 ON bes1
s1: ALTER TABLE T ADD RDAREA A3
s1: COMMIT
GIVE p1: pdrbal -k share -t T -c 5 -n 400
STEP p1 2278
s1: SELECT V FROM T WHERE K = 4
s2: SELECT V FROM T WHERE K = 2
STEP p1 7
s1: COMMIT
STEP p1 100000
