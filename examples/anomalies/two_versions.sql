B: BEGIN ISOLATION LEVEL :level;
B: SELECT pence FROM account WHERE name = 'ada';
A: ALTER TABLE account ALTER COLUMN pence TYPE int USING pence * 100;
C: SELECT pence FROM account WHERE name = 'ada';
B: SELECT pence FROM account WHERE name = 'ben';
B: COMMIT;
-- and where the other transaction has read another table first
B: BEGIN ISOLATION LEVEL :level;
B: SELECT count(*) FROM pg_class WHERE relname = 'account';
A: ALTER TABLE account ALTER COLUMN pence TYPE int USING pence * 100;
B: SELECT count(*), sum(pence) FROM account;
B: COMMIT;
