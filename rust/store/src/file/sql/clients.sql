CREATE VIEW clients AS -- where each client is
WITH RECURSIVE
numbers (client) AS (
    SELECT 0
    UNION ALL
    SELECT client + 1 FROM numbers WHERE client + 1 < (SELECT client_count FROM log)
),
taken AS MATERIALIZED (SELECT * FROM moves),
leader AS MATERIALIZED (SELECT coalesce((SELECT client FROM taken WHERE kind = 0 ORDER BY seq DESC LIMIT 1), 0) AS named),
-- Beside max(), SQLite takes the other columns from the row with the greatest.
moved AS MATERIALIZED (
    SELECT client, kind, answer, listed, max(seq) FROM taken WHERE kind NOT IN (0, 8, 10) GROUP BY client
),
memory AS MATERIALIZED (
    SELECT client, ledger, max(seq) FROM taken WHERE kind = 6 OR (kind = 3 AND ledger IS NOT NULL) GROUP BY client
),
versions AS MATERIALIZED (
    SELECT client, max(listed) AS list_version FROM taken WHERE kind = 3 OR (kind = 7 AND answer = 0) GROUP BY client
),
written AS MATERIALIZED (SELECT client, count(*) AS entries FROM taken WHERE kind IN (8, 10) GROUP BY client),
stages AS MATERIALIZED (
    SELECT
        client,
        CASE
            WHEN kind = 1 THEN 'fetching'
            WHEN kind = 2 THEN 'waiting'
            WHEN kind = 3 THEN CASE listed WHEN 0 THEN 'creating' ELSE 'closing last' END
            WHEN kind = 4 THEN CASE answer WHEN 0 THEN 'finishing' WHEN 1 THEN 'creating' ELSE 'fetching' END
            WHEN kind = 5 THEN CASE answer WHEN 0 THEN 'creating' ELSE 'fetching' END
            WHEN kind = 6 THEN 'appending'
            WHEN answer = 2 THEN 'waiting'
            WHEN kind = 7 THEN 'writing'
            ELSE 'creating'
        END AS stage
    FROM moved
)
SELECT
    client,
    client = named AS named,
    coalesce(stage <> 'waiting', 0) AS leads,
    coalesce(stage, 'waiting') AS stage,
    list_version,
    ledger,
    coalesce(entries, 0) AS entries
FROM numbers
JOIN leader
LEFT JOIN stages USING (client)
LEFT JOIN versions USING (client)
LEFT JOIN memory USING (client)
LEFT JOIN written USING (client)
ORDER BY client
