-- Two tellers at one bank, whose transfers meet in opposite order.
desk: CREATE RDAREA NORTH ON bes1
desk: CREATE RDAREA SOUTH ON bes2
desk: CREATE TABLE ACCOUNT (ID INTEGER, OWNER VARCHAR(20), BALANCE INTEGER) HASH HASHA BY ID IN (NORTH, SOUTH)
desk: INSERT INTO ACCOUNT VALUES (1, 'Ada', 100)
desk: INSERT INTO ACCOUNT VALUES (2, 'Ben', 100)
desk: COMMIT

-- Ada pays Ben 30 while Ben pays Ada 50: each has one row, and waits for the other's.
ada: UPDATE ACCOUNT SET BALANCE = BALANCE - 30 WHERE ID = 1
ben: UPDATE ACCOUNT SET BALANCE = BALANCE - 50 WHERE ID = 2
ada: UPDATE ACCOUNT SET BALANCE = BALANCE + 30 WHERE ID = 2
ben: UPDATE ACCOUNT SET BALANCE = BALANCE + 50 WHERE ID = 1

-- The second wait would have closed a cycle: ben was rolled back, and ada went on.
ada: COMMIT
ben: UPDATE ACCOUNT SET BALANCE = BALANCE - 50 WHERE ID = 2
ben: UPDATE ACCOUNT SET BALANCE = BALANCE + 50 WHERE ID = 1
ben: COMMIT

-- Nothing was lost on the way.
desk: SELECT OWNER, BALANCE FROM ACCOUNT
desk: SELECT SUM(BALANCE) FROM ACCOUNT
desk: COMMIT
