CREATE TABLE t (id BIGINT, a BIGINT, PRIMARY KEY (id), KEY ka (a));
@session a
BEGIN;
INSERT INTO t VALUES (1,10);
@session b
INSERT INTO t VALUES (1,11);
@session f
SELECT * FROM t;
@session a
COMMIT;
@session f
SELECT * FROM t;
