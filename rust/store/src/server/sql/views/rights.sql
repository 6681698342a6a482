CREATE VIEW cindrolf.rights AS -- which client has the right to which step
SELECT logs.name AS log, rights.*
FROM cindrolf.logs CROSS JOIN LATERAL (
    WITH
    words AS MATERIALIZED (
        SELECT client, -18014398509481984 AS word, 0 AS seq FROM generate_series(0, logs.client_count - 1) AS client
        UNION ALL
        SELECT client, cindrolf.number_of(input), seq
        FROM cindrolf.rows JOIN cindrolf.answers USING (log, seq)
        WHERE log = logs.log AND kind = 13 AND answer = 0
    ),
    latest AS MATERIALIZED (SELECT DISTINCT ON (client) client, word FROM words ORDER BY client, seq DESC),
    steps (number, step) AS (
        VALUES
            (0, 'name'),
            (1, 'become'),
            (2, 'abdicate'),
            (3, 'fetch'),
            (4, 'close last'),
            (5, 'finish'),
            (6, 'create'),
            (7, 'append'),
            (8, 'write'),
            (9, 'close own')
    )
    SELECT client, step, (word >> (63 - number)) & 1 AS granted
    FROM latest CROSS JOIN steps
    ORDER BY client, number
) AS rights;
