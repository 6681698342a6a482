CREATE VIEW total AS -- the run total, exactly
SELECT
    count(*) AS entries,
    format(
        '%d.%012d',
        coalesce(sum(value / 1000000000000), 0) + coalesce(sum(value % 1000000000000), 0) / 1000000000000,
        coalesce(sum(value % 1000000000000), 0) % 1000000000000
    ) AS expected_errors
FROM chain
