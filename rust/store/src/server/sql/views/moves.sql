CREATE VIEW cindrolf.moves AS -- the steps that were taken, each with what it was about; the other views are made of it
SELECT logs.name AS log, moves.*
FROM cindrolf.logs CROSS JOIN LATERAL (
    WITH
    taken AS MATERIALIZED (
        SELECT
            seq,
            kind,
            client,
            answer,
            CASE kind WHEN 8 THEN cindrolf.number_of(input) ELSE value END AS value,
            -- how many ledgers were created, and how many listed, up to this step
            count(*) FILTER (WHERE kind = 6) OVER earlier AS ledgers,
            count(*) FILTER (WHERE kind = 7 AND answer = 0) OVER earlier AS listed
        FROM cindrolf.rows JOIN cindrolf.answers USING (log, seq)
        WHERE log = logs.log AND kind <= 10 AND (answer <= 2 OR answer >= 4294967296)
        WINDOW earlier AS (ORDER BY seq)
    ),
    own AS MATERIALIZED (
        SELECT
            *,
            -- the ledger that the client created last, and the length of the list when it fetched that last
            max(ledgers) FILTER (WHERE kind = 6) OVER earlier AS own_ledger,
            max(listed) FILTER (WHERE kind = 3) OVER earlier AS fetched
        FROM taken
        WINDOW earlier AS (PARTITION BY client ORDER BY seq)
    ),
    -- An array, since PostgreSQL does not know how few they are, and would go through them for each step.
    list AS MATERIALIZED (
        SELECT array_agg(own_ledger ORDER BY listed) AS ledgers FROM own WHERE kind = 7 AND answer = 0
    )
    SELECT
        seq,
        kind,
        client,
        answer,
        value,
        listed,
        CASE WHEN kind IN (3, 4, 5) THEN list.ledgers[fetched] ELSE own_ledger END AS ledger
    FROM own CROSS JOIN list
    ORDER BY seq
) AS moves;
