-- An operator adds a storage area to a table, and its rows move while two sessions go on.
ops: CREATE RDAREA EAST ON bes1
ops: CREATE RDAREA WEST ON bes2
ops: CREATE TABLE STOCK (ITEM INTEGER, NAME VARCHAR(20), QTY INTEGER) HASH HASHA BY ITEM IN (EAST, WEST)
ops: INSERT INTO STOCK VALUES (1, 'stool', 10)
ops: INSERT INTO STOCK VALUES (2, 'lamp', 10)
ops: INSERT INTO STOCK VALUES (3, 'table', 10)
ops: INSERT INTO STOCK VALUES (4, 'chair', 10)
ops: INSERT INTO STOCK VALUES (8, 'sofa', 10)
ops: INSERT INTO STOCK VALUES (12, 'shelf', 10)
ops: COMMIT

-- The new area gets a third of the table's 1,024 groups. They are to move now; a statement looks in both areas, and a new row goes to the new one.
ops: CREATE RDAREA NORTH ON bes2
ops: ALTER TABLE STOCK ADD RDAREA NORTH
ops: COMMIT
shop: SELECT SUM(QTY) FROM STOCK
shop: COMMIT

-- pdrbal moves at most two rows a turn. Held by GIVE and STEP it stands amid a turn: the shelf is put in NORTH and not yet taken out of EAST.
GIVE mover: pdrbal -k share -t STOCK -c 2 -n 500
STEP mover 1367

-- The shop waits for the shelf, whose turn isn't committed; the till sells a chair, which no turn holds.
shop: SELECT NAME, QTY FROM STOCK WHERE ITEM = 12
till: UPDATE STOCK SET QTY = QTY - 1 WHERE ITEM = 4
STEP mover 9
shop: COMMIT

-- Now pdrbal waits for the chair, until the till commits. A bench comes in meanwhile, and lies in NORTH at once.
STEP mover 100000
till: COMMIT
till: INSERT INTO STOCK VALUES (16, 'bench', 5)
till: COMMIT
STEP mover 100000

-- Nothing is left to move, and nothing was lost on the way.
mover: pdrbal -k share -t STOCK -c 2 -n 500
shop: SELECT NAME, QTY FROM STOCK
shop: SELECT SUM(QTY) FROM STOCK
shop: COMMIT
