CREATE VIEW cindrolf.entries AS -- each read, in units of 10^-12 expected errors
SELECT logs.name AS log, entries.*
FROM cindrolf.logs CROSS JOIN LATERAL (
    SELECT
        (answer >> 16) & 65535 AS entry,
        ledger,
        answer & 65535 AS place,
        moves.client,
        moves.value,
        seq,
        cindrolf.time_of(time) AS time,
        process,
        note
    FROM cindrolf.moves JOIN cindrolf.rows USING (seq)
    WHERE moves.log = logs.name AND rows.log = logs.log AND moves.kind IN (8, 10)
    ORDER BY seq
) AS entries;
