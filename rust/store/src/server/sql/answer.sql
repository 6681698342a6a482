-- Adds the answers of rows, from row `first` on: of the rows after those that are audited. For rows that are audited
-- the answers have to be the same, so that the same message may be sent again, and two audits may go on at one moment.
CREATE FUNCTION cindrolf.answer(log integer, first bigint, answers bigint[], stored bigint[]) RETURNS void
LANGUAGE plpgsql SECURITY DEFINER SET search_path = pg_catalog, pg_temp
SET enable_seqscan = off SET enable_bitmapscan = off SET plan_cache_mode = force_generic_plan AS $$
#variable_conflict use_column
DECLARE
    audited bigint;
    last bigint := first + cardinality(answers) - 1;
BEGIN
    IF NOT EXISTS (SELECT FROM cindrolf.members WHERE role = session_user AND client = -3) THEN
        RAISE EXCEPTION 'role % audits no logs', session_user USING ERRCODE = '42501';
    END IF;
    SELECT coalesce(max(seq), 0) INTO audited FROM cindrolf.answers WHERE log = answer.log;
    IF (first BETWEEN 1 AND audited + 1 AND cardinality(stored) = cardinality(answers)
        AND last <= (SELECT max(seq) FROM cindrolf.rows WHERE log = answer.log)) IS NOT TRUE
    THEN
        RAISE EXCEPTION 'rows from % on are to be audited, and not from %', audited + 1, first USING ERRCODE = '22023';
    END IF;
    INSERT INTO cindrolf.answers (log, seq, answer, value)
    SELECT answer.log, first + nth - 1, given.answer, given.value
    FROM unnest(answer.answers, stored) WITH ORDINALITY AS given (answer, value, nth)
    WHERE first + nth - 1 > audited
    ON CONFLICT DO NOTHING;
    IF EXISTS (
        SELECT FROM unnest(answer.answers, stored) WITH ORDINALITY AS given (answer, value, nth)
        JOIN cindrolf.answers AS kept ON kept.log = answer.log AND kept.seq = first + nth - 1
        WHERE (kept.answer, kept.value) IS DISTINCT FROM (given.answer, given.value)
    ) THEN
        RAISE EXCEPTION 'one of the rows from % on was audited with another answer', first USING ERRCODE = '22023';
    END IF;
END $$;
