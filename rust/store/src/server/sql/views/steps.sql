CREATE VIEW cindrolf.steps AS -- the steps in their order, each with its answer
WITH kinds (kind, letter, step) AS (
    VALUES
        (0, 'N', 'name'),
        (1, 'B', 'become'),
        (2, 'A', 'abdicate'),
        (3, 'F', 'fetch'),
        (4, 'L', 'close last'),
        (5, 'K', 'finish'),
        (6, 'C', 'create'),
        (7, 'P', 'append'),
        (8, 'W', 'write'),
        (9, 'O', 'close own'),
        (10, NULL, 'write scores')
)
SELECT
    logs.name AS log,
    seq,
    letter,
    step,
    client,
    CASE WHEN kind = 8 THEN cindrolf.number_of(input) END AS value,
    CASE
        WHEN answer = 0 THEN 'ok'
        WHEN answer = 1 THEN 'was'
        WHEN answer = 2 THEN 'behind'
        WHEN answer < 4294967296 THEN 'ref ' || (answer - 256)
        ELSE 'entry ' || ((answer >> 16) & 65535) || ' place ' || (answer & 65535)
    END AS reply,
    cindrolf.time_of(time) AS time,
    process,
    note
FROM cindrolf.logs
JOIN cindrolf.rows USING (log)
JOIN cindrolf.answers USING (log, seq)
JOIN kinds USING (kind)
ORDER BY logs.name, seq;
