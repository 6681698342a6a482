CREATE VIEW marks AS -- the marks that are kept, each with the entry count when it was set
SELECT
    CAST(input AS TEXT) AS name,
    (SELECT count(*) FROM moves WHERE kind IN (8, 10) AND moves.seq < mark.seq) AS entries,
    strftime('%Y-%m-%dT%H:%M:%S', time / 1000000, 'unixepoch') || format('.%06dZ', time % 1000000) AS time,
    process,
    note
FROM journal AS mark
WHERE
    kind = 11
    AND answer = 0
    AND NOT EXISTS (
        SELECT 1
        FROM journal AS later
        WHERE later.kind = 12 AND later.answer = 0 AND later.input = mark.input AND later.seq > mark.seq
    )
ORDER BY seq
