CREATE TABLE t (id BIGINT, a BIGINT, PRIMARY KEY (id), KEY ka (a));
INSERT INTO t VALUES (1,10),(2,20);
@session reader
BEGIN;
SELECT * FROM t;
@session first
BEGIN;
UPDATE t SET a = a + 5 WHERE id = 1;
@session second
UPDATE t SET a = a * 2 WHERE id = 1;
@session first
COMMIT;
@session reader
SELECT * FROM t;
COMMIT;
SELECT * FROM t;
INSERT INTO t VALUES (3,30),(1,11);
SELECT * FROM t;
