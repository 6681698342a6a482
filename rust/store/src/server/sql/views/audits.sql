-- How far each log is audited. The other views do not have the rows that are not.
CREATE VIEW cindrolf.audits AS
SELECT log, rows, audited, rows - audited AS not_audited
FROM (
    SELECT
        name AS log,
        (SELECT coalesce(max(seq), 0) FROM cindrolf.rows WHERE rows.log = logs.log) AS rows,
        (SELECT coalesce(max(seq), 0) FROM cindrolf.answers WHERE answers.log = logs.log) AS audited
    FROM cindrolf.logs
) AS counted
ORDER BY log;
