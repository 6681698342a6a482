-- Adds rows as another log has them, with their ids, times and names of processes, and answers how many rows there are
-- then. -1: the log does not have `known` rows, with this chain value of the last. It is for administrators, and only
-- for a log in which nobody was given a start number yet: so no row of a log that is in use is made up. Times are in
-- microseconds since 1970.
CREATE FUNCTION cindrolf.import(
    log integer,
    known bigint,
    known_chain bytea,
    requests bigint[],
    parts bigint[],
    kinds smallint[],
    clients bigint[],
    inputs bytea[],
    times bigint[],
    processes text[],
    notes text[]
) RETURNS bigint LANGUAGE plpgsql SECURITY DEFINER SET search_path = pg_catalog, pg_temp
SET enable_seqscan = off SET enable_bitmapscan = off SET plan_cache_mode = force_generic_plan AS $$
#variable_conflict use_column
DECLARE
    chain bytea;
    last bigint := 0;
    before bigint; -- the request of the row before, and which step of it that is
    before_part bigint;
    counts integer[];
    slot integer;
    chains bytea[];
BEGIN
    IF NOT EXISTS (SELECT FROM cindrolf.members WHERE role = session_user AND client = -1) THEN
        RAISE EXCEPTION 'role % copies no rows', session_user USING ERRCODE = '42501';
    END IF;
    SELECT chain INTO chain FROM cindrolf.logs WHERE log = import.log FOR NO KEY UPDATE;
    IF EXISTS (SELECT FROM cindrolf.starts WHERE log = import.log AND role IS NOT NULL) THEN
        RAISE EXCEPTION 'log % is in use', import.log USING ERRCODE = '55000';
    END IF;
    IF known > 0 THEN
        SELECT seq, chain, request, part INTO last, chain, before, before_part
        FROM cindrolf.rows WHERE log = import.log ORDER BY seq DESC LIMIT 1;
    ELSIF EXISTS (SELECT FROM cindrolf.rows WHERE log = import.log) THEN
        RETURN -1;
    END IF;
    IF (known = last AND known_chain = chain) IS NOT TRUE THEN
        RETURN -1;
    END IF;
    counts := cindrolf.counted(import.log);
    FOR step IN 1 .. cardinality(kinds) LOOP
        IF NOT cindrolf.is_step(kinds[step], clients[step], inputs[step])
            OR (parts[step] = 0 OR parts[step] = before_part + 1 AND requests[step] = before) IS NOT TRUE
            OR octet_length(notes[step]) > {NOTE_LIMIT} OR octet_length(processes[step]) > {PROCESS_LIMIT}
        THEN
            RAISE EXCEPTION 'row % is no row', known + step USING ERRCODE = '22023';
        END IF;
        slot := cindrolf.slot(kinds[step], clients[step]) + 1;
        counts[slot] := counts[slot] + 1;
        IF counts[slot] > cindrolf.room(slot - 1) THEN
            RAISE EXCEPTION 'there is no room for row %', known + step USING ERRCODE = '54000';
        END IF;
        before := requests[step];
        before_part := parts[step];
        chain := cindrolf.chain_value(chain, before, before_part, kinds[step], clients[step], inputs[step]);
        chains[step] := chain;
    END LOOP;
    INSERT INTO cindrolf.rows (log, seq, request, part, kind, client, input, chain, time, process, note)
    SELECT import.log, known + step, requests[step], parts[step], kinds[step], clients[step], inputs[step],
        chains[step],
        timestamptz 'epoch' + times[step] / 1000000 * interval '1 second'
            + times[step] % 1000000 * interval '1 microsecond',
        processes[step], notes[step]
    FROM generate_series(1, cardinality(kinds)) AS step;
    -- Nobody is given the start numbers of these requests again.
    INSERT INTO cindrolf.starts (log, start, role)
    SELECT DISTINCT import.log, request >> 32 & 4294967295, NULL FROM unnest(requests) AS request
    ON CONFLICT DO NOTHING;
    RETURN known + cardinality(kinds);
END $$;
