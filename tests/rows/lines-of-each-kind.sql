
 	 
-- s1: COMMIT
# s1: COMMIT
BARRIER
barrier
s1: CREATE RDAREA a1 ON bes1
s1:create	rdarea a2 on bes2;
s1: CREATE RDAREA A2 ON bes2 ;
s1: create table T (K INTEGER, V VARCHAR(10)) hash hasha by K in (a1, a2)
s1: CREATE TABLE U (A VARCHAR(255), C VARCHAR(0)) HASH HASHA BY A IN (x)
s1: INSERT INTO T VALUES (-1, 'it''s')
s1: INSERT INTO T VALUES ( 0000000000000000007 , '' ) ;
s1: SELECT * FROM T WHERE (K) = (5) AND NOT V < 'x'
s1: select V,K from T;
s1: SELECT COUNT(*) FROM T
s1: SELECT SUM ( K ) FROM T;
s1: UPDATE T SET V = 'y' WHERE K > 2 * 3
s1: UPDATE T SET V = 'y';
s1: UPDATE T SET V = 'y', K = K + 1 WHERE K > 2 * 3
s1: DELETE FROM T WHERE K<>-1;
s1: LOCK TABLE T IN SHARE MODE
s1: LOCK TABLE T IN EXCLUSIVE MODE
s1: ALTER TABLE T ADD RDAREA A2;
s1: Commit;
s1: select K from t
s1: select k from T
s1:ROLLBACK
GIVE s1: DELETE FROM T;
STEP s1 2147483647
give nnnnnnnnnnnnnnnnnnnnnnnnnnnnnn : COMMIT
s1: COMMIT

