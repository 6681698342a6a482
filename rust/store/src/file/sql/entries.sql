CREATE VIEW entries AS -- each read, in units of 10^-12 expected errors
SELECT
    (answer >> 16) & 65535 AS entry,
    ledger,
    answer & 65535 AS place,
    moves.client,
    moves.value,
    moves.seq,
    time,
    process,
    note
FROM moves JOIN steps ON steps.seq = moves.seq
WHERE moves.kind IN (8, 10)
ORDER BY moves.seq
