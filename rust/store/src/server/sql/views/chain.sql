CREATE VIEW cindrolf.chain AS -- the chain reading: the entries along the list of ledgers
SELECT logs.name AS log, along.*
FROM cindrolf.logs CROSS JOIN LATERAL (
    WITH
    list AS MATERIALIZED (
        SELECT array_agg(ledger ORDER BY listed) AS ledgers
        FROM cindrolf.moves
        WHERE moves.log = logs.name AND kind = 7 AND answer = 0
    ),
    listed AS MATERIALIZED (
        SELECT entries.*, array_position(ledgers, ledger) AS list_place
        FROM cindrolf.entries CROSS JOIN list
        WHERE entries.log = logs.name
    )
    SELECT
        row_number() OVER (ORDER BY list_place, entry) - 1 AS position,
        entry,
        ledger,
        place,
        client,
        value,
        time,
        process,
        note
    FROM listed
    WHERE list_place IS NOT NULL
    ORDER BY position
) AS along;
