CREATE VIEW moves AS -- the steps that were taken, each with what it was about; the other views are made of it
WITH
taken AS MATERIALIZED (
    SELECT
        seq,
        kind,
        client,
        answer,
        CASE kind WHEN 8 THEN input ELSE value END AS value,
        -- how many ledgers were created, and how many listed, up to this step
        count(*) FILTER (WHERE kind = 6) OVER earlier AS ledgers,
        count(*) FILTER (WHERE kind = 7 AND answer = 0) OVER earlier AS listed
    FROM journal
    WHERE kind <= 10 AND (answer <= 2 OR answer >= 4294967296)
    WINDOW earlier AS (ORDER BY seq)
),
own AS MATERIALIZED (
    SELECT
        *,
        -- the ledger that the client created last, and the length of the list when it fetched that last
        max(ledgers) FILTER (WHERE kind = 6) OVER earlier AS own_ledger,
        max(listed) FILTER (WHERE kind = 3) OVER earlier AS fetched
    FROM taken
    WINDOW earlier AS (PARTITION BY client ORDER BY seq)
),
list AS MATERIALIZED (SELECT listed AS list_place, own_ledger AS ledger FROM own WHERE kind = 7 AND answer = 0)
SELECT
    seq,
    kind,
    own.client,
    answer,
    value,
    listed,
    CASE WHEN kind IN (3, 4, 5) THEN list.ledger ELSE own_ledger END AS ledger
FROM own LEFT JOIN list ON list_place = fetched
ORDER BY seq
