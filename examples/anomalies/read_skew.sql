B: BEGIN ISOLATION LEVEL :level;
B: SELECT pence FROM account WHERE name = 'ada';
A: BEGIN ISOLATION LEVEL :level;
A: UPDATE account SET pence = pence - 50 WHERE name = 'ada';
A: UPDATE account SET pence = pence + 50 WHERE name = 'ben';
A: COMMIT;
B: SELECT pence FROM account WHERE name = 'ben';
B: COMMIT;
