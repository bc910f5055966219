A: BEGIN ISOLATION LEVEL :level;
A: SELECT pence FROM account WHERE name = 'ada';
B: UPDATE account SET pence = 150 WHERE name = 'ada';
A: SELECT pence FROM account WHERE name = 'ada';
A: COMMIT;
