CREATE VIEW cindrolf.ledgers AS -- the ledgers that were created; one without a list place was never appended
SELECT logs.name AS log, ledgers.*
FROM cindrolf.logs CROSS JOIN LATERAL (
    WITH found AS MATERIALIZED (
        SELECT
            ledger,
            max(listed) FILTER (WHERE kind = 7 AND answer = 0) AS list_place,
            -- The first close last that is done fences it. One of a client that fetched it fenced is done too, and
            -- changes nothing.
            max((kind = 4 AND answer = 0)::integer) AS fenced,
            max((kind IN (5, 9) AND answer = 0)::integer) AS closed,
            count(*) FILTER (WHERE kind IN (8, 10)) AS entries,
            coalesce(sum(value) FILTER (WHERE kind IN (8, 10)), 0) AS sum
        FROM cindrolf.moves
        WHERE moves.log = logs.name AND ledger IS NOT NULL
        GROUP BY ledger
    )
    SELECT
        ledger,
        list_place,
        CASE WHEN closed = 1 THEN 'closed' WHEN fenced = 1 THEN 'recovering' ELSE 'open' END AS state,
        fenced,
        fenced + closed AS version,
        entries,
        (sum * 0.000000000001)::text AS expected_errors
    FROM found
    ORDER BY ledger
) AS ledgers;
