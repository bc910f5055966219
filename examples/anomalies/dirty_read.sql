A: BEGIN ISOLATION LEVEL :level;
B: BEGIN ISOLATION LEVEL :level;
A: UPDATE account SET pence = 1000000 WHERE name = 'ada';
B: SELECT pence FROM account WHERE name = 'ada';
A: ROLLBACK;
B: COMMIT;
