CREATE VIEW rights AS -- which client has the right to which step
WITH RECURSIVE
numbers (client) AS (
    SELECT 0
    UNION ALL
    SELECT client + 1 FROM numbers WHERE client + 1 < (SELECT client_count FROM log)
),
words AS MATERIALIZED (
    SELECT client, -18014398509481984 AS word, 0 AS seq FROM numbers
    UNION ALL
    SELECT client, input, seq FROM journal WHERE kind = 13 AND answer = 0
),
latest AS MATERIALIZED (SELECT client, word, max(seq) FROM words GROUP BY client),
steps (number, step) AS (
    VALUES
        (0, 'name'),
        (1, 'become'),
        (2, 'abdicate'),
        (3, 'fetch'),
        (4, 'close last'),
        (5, 'finish'),
        (6, 'create'),
        (7, 'append'),
        (8, 'write'),
        (9, 'close own')
)
SELECT client, step, (word >> (63 - number)) & 1 AS granted
FROM latest JOIN steps
ORDER BY client, number
