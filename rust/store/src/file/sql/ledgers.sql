CREATE VIEW ledgers AS -- the ledgers that were created; one without a list place was never appended
WITH
about AS MATERIALIZED (SELECT kind, answer, value, listed, ledger FROM moves WHERE ledger IS NOT NULL),
found AS MATERIALIZED (
    SELECT
        ledger,
        max(listed) FILTER (WHERE kind = 7 AND answer = 0) AS list_place,
        -- The first close last that is done fences it. One of a client that fetched it fenced is done too, and changes
        -- nothing.
        max(kind = 4 AND answer = 0) AS fenced,
        max(kind IN (5, 9) AND answer = 0) AS closed,
        count(*) FILTER (WHERE kind IN (8, 10)) AS entries,
        coalesce(sum(value / 1000000000000) FILTER (WHERE kind IN (8, 10)), 0) AS wholes,
        coalesce(sum(value % 1000000000000) FILTER (WHERE kind IN (8, 10)), 0) AS parts
    FROM about
    GROUP BY ledger
)
SELECT
    ledger,
    list_place,
    CASE WHEN closed THEN 'closed' WHEN fenced THEN 'recovering' ELSE 'open' END AS state,
    fenced,
    fenced + closed AS version,
    entries,
    format('%d.%012d', wholes + parts / 1000000000000, parts % 1000000000000) AS expected_errors
FROM found
ORDER BY ledger
