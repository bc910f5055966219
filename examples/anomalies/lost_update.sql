A: BEGIN ISOLATION LEVEL :level;
B: BEGIN ISOLATION LEVEL :level;
A: SELECT pence FROM account WHERE name = 'ada';
B: SELECT pence FROM account WHERE name = 'ada';
A: UPDATE account SET pence = 100 + 10 WHERE name = 'ada';
B: UPDATE account SET pence = 100 + 10 WHERE name = 'ada';
A: COMMIT;
B: COMMIT;
A: SELECT pence FROM account WHERE name = 'ada';
