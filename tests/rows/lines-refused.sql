-- a line of pdrbal without its table, in an open transaction, and while one is in progress; -c and -n at their ends
s1: SELECT * FROM T
p1: pdrbal -k share -t T -c 1 -n 1
s1: pdrbal -k share -t T -c 1 -n 1
GIVE s1: pdrbal -k share -t T -c 1 -n 1
s1: ROLLBACK
GIVE p2: pdrbal -k share -t T -c 1 -n 1
p2: COMMIT
STEP p2 4
p2: pdrbal -k share -t T -c 1 -n 1
STEP p2 100
p1: COMMIT
p1: pdrbal - k share -t T -c 10000 -n 1000000;
p1: PDRBAL -k SHARE -t T -c 1 -n 1
