A: BEGIN ISOLATION LEVEL :level;
A: UPDATE account SET pence = pence - 50 WHERE name = 'ada';
A: PREPARE TRANSACTION 'move at one';
C@two: BEGIN ISOLATION LEVEL :level;
C@two: UPDATE account SET pence = pence + 50 WHERE name = 'ben';
C@two: PREPARE TRANSACTION 'move at two';
-- the program that would decide is lost here
D@two: SELECT pence FROM account WHERE name = 'ben';
D@two: UPDATE account SET pence = pence + 1 WHERE name = 'ben';
A: SELECT gid, database FROM pg_prepared_xacts ORDER BY database;
-- somebody decides by hand, at each of the two
A: COMMIT PREPARED 'move at one';
C@two: COMMIT PREPARED 'move at two';
A: SELECT pence FROM account WHERE name = 'ada';
C@two: SELECT pence FROM account WHERE name = 'ben';
