-- a session waits for the first key of a batch whose second key it has: the line of pdrbal would close the cycle, and is rolled back
s1: CREATE RDAREA A1 ON bes1
s1: CREATE RDAREA A2 ON bes2
s1: CREATE TABLE T (K INTEGER, V VARCHAR(20)) HASH HASHA BY K IN (A1, A2)
s1: COMMIT
s1: INSERT INTO T VALUES (4, 'd')
s1: INSERT INTO T VALUES (1601, 'q')
s1: COMMIT
s1: CREATE RDAREA A3 ON bes1
s1: ALTER TABLE T ADD RDAREA A3
s1: COMMIT
s1: UPDATE T SET V = 'x' WHERE K = 1601
GIVE p1: pdrbal -k share -t T -c 5 -n 400
STEP p1 2279
s1: UPDATE T SET V = 'y' WHERE K = 4
STEP p1 100000
s1: COMMIT
p1: pdrbal -k share -t T -c 5 -n 400
s1: SELECT * FROM T
