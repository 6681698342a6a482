CREATE VIEW cindrolf.total AS -- the run total, exactly
SELECT logs.name AS log, total.*
FROM cindrolf.logs CROSS JOIN LATERAL (
    SELECT count(*) AS entries, (coalesce(sum(value), 0) * 0.000000000001)::text AS expected_errors
    FROM cindrolf.chain
    WHERE chain.log = logs.name
) AS total;
