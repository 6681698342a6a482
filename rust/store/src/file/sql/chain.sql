CREATE VIEW chain AS -- the chain reading: the entries along the list of ledgers
WITH list AS MATERIALIZED (SELECT listed AS list_place, ledger FROM moves WHERE kind = 7 AND answer = 0)
SELECT
    row_number() OVER (ORDER BY list_place, entry) - 1 AS position,
    entry,
    ledger,
    place,
    client,
    value,
    time,
    process,
    note
FROM entries JOIN list USING (ledger)
ORDER BY position
