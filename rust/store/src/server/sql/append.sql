-- Adds the rows of a request after the last row, wherever that is now, and answers how many rows come before them.
--
-- -1: the log is not the one whose first `known` rows, with the chain value of the last, the caller has. A caller whose
-- start number this log never gave has the same answer.
-- A request whose id some row has is not added again: the answer is that of its rows.
-- 42501: the caller may not take one of the steps. 22023: one is no step. 54000: there is no room for one.
--
-- The lock is the server's own: it ends with the commit, which waits for no further byte of the caller. The log's row
-- is only locked and never updated, so that it leaves no dead version behind. The lock also makes every answer wait for
-- the disk, and for the standby: that of a request which is found again, too.
CREATE FUNCTION cindrolf.append(
    log integer,
    known bigint,
    known_chain bytea,
    request bigint,
    kinds smallint[],
    clients bigint[],
    inputs bytea[],
    process text,
    notes text[]
) RETURNS bigint LANGUAGE plpgsql SECURITY DEFINER SET search_path = pg_catalog, pg_temp
-- A session keeps its plans. One that was made while the table was small would go through all rows for ever. One that
-- is made for the arrays at hand has copies of them, in which each element is looked for from the first on.
SET enable_seqscan = off SET enable_bitmapscan = off SET plan_cache_mode = force_generic_plan AS $$
#variable_conflict use_column
DECLARE
    fresh bytea;
    last bigint;
    chain bytea;
    counts integer[];
    latest bigint;
    latest_role text;
    place bigint;
    steps integer;
    moment timestamptz;
    chains bytea[];
BEGIN
    SELECT chain INTO fresh FROM cindrolf.logs WHERE log = append.log FOR NO KEY UPDATE;
    -- A statement of its own, so that it sees what was committed before the lock was given.
    SELECT seq, chain, counts, request, role INTO last, chain, counts, latest, latest_role
    FROM cindrolf.rows WHERE log = append.log ORDER BY seq DESC LIMIT 1;
    IF NOT FOUND THEN
        last := 0;
        chain := fresh;
    END IF;
    IF (known = last AND known_chain = chain) IS NOT TRUE
        AND (known_chain = CASE known WHEN 0 THEN fresh ELSE cindrolf.chain_at(append.log, known) END) IS NOT TRUE
    THEN
        RETURN -1;
    END IF;
    SELECT seq - 1 INTO place FROM cindrolf.rows WHERE log = append.log AND request = append.request AND part = 0;
    IF FOUND THEN
        RETURN place;
    END IF;
    -- Where the last row is of the same start and role, this was seen to before.
    IF (latest >> 32 = request >> 32 AND latest_role = session_user) IS NOT TRUE THEN
        CASE cindrolf.is_start_of(append.log, request, session_user)
            WHEN true THEN NULL;
            WHEN false THEN
                RAISE EXCEPTION 'the id % is not one of role %', request, session_user USING ERRCODE = '42501';
            ELSE RETURN -1;
        END CASE;
    END IF;
    steps := cindrolf.steps_of(kinds, clients, inputs, process, notes);
    counts := cindrolf.counts_with(append.log, last, counts, kinds, clients);
    chains := cindrolf.chains_after(chain, request, kinds, clients, inputs);
    moment := clock_timestamp();
    -- Only the last row needs the counts. By their places, as they were looked at: an array need not begin with 1.
    INSERT INTO cindrolf.rows (log, seq, request, part, kind, client, input, chain, time, process, note, counts)
    SELECT append.log, last + step, append.request, step - 1, kinds[step], clients[step], inputs[step],
        chains[step], moment, append.process, notes[step], CASE step WHEN steps THEN counts END
    FROM generate_series(1, steps) AS step;
    RETURN last;
END $$;
