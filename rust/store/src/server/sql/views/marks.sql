CREATE VIEW cindrolf.marks AS -- the marks that are kept, each with the entry count when it was set
SELECT logs.name AS log, marks.*
FROM cindrolf.logs CROSS JOIN LATERAL (
    WITH latest AS MATERIALIZED (
        SELECT DISTINCT ON (input) seq, kind, input, time, process, note
        FROM cindrolf.rows JOIN cindrolf.answers USING (log, seq)
        WHERE log = logs.log AND kind IN (11, 12) AND answer = 0
        ORDER BY input, seq DESC
    )
    SELECT
        cindrolf.mark_name(input) AS name,
        (
            SELECT count(*) FROM cindrolf.answers
            WHERE answers.log = logs.log AND answers.seq < latest.seq AND answer >= 4294967296
        ) AS entries,
        cindrolf.time_of(time) AS time,
        process,
        note
    FROM latest
    WHERE kind = 11
    ORDER BY seq
) AS marks;
