-- Adds a client's write as `append` does, where no row comes after the `known` ones and the last of these is of the same
-- start and role: nearly always, where one controller writes. Else `append` adds and answers.
--
-- It is one statement, since each takes its time while the lock is held. The statement need not see what was committed
-- before it was given the lock: the row that the caller knows does not change, and where there is one after it, or one with
-- this id, a unique index has that, and nothing is inserted.
CREATE FUNCTION cindrolf.append_write(
    log integer, known bigint, known_chain bytea, request bigint, client bigint, value bigint, process text, note text
) RETURNS bigint LANGUAGE plpgsql SECURITY DEFINER SET search_path = pg_catalog, pg_temp
SET enable_seqscan = off AS $$ -- as in `append`; here the other settings change no plan
#variable_conflict use_column
BEGIN
    INSERT INTO cindrolf.rows (log, seq, request, part, kind, client, input, chain, time, process, note)
    SELECT held.log, known + 1, append_write.request, 0, 8, append_write.client, int8send(value),
        cindrolf.chain_value(known_chain, append_write.request, 0, 8::smallint, append_write.client, int8send(value)),
        clock_timestamp(), append_write.process, append_write.note
    FROM (SELECT log FROM cindrolf.logs WHERE log = append_write.log FOR NO KEY UPDATE) AS held,
        cindrolf.rows AS last, cindrolf.members AS member
    WHERE last.log = append_write.log AND last.seq = known AND last.chain = known_chain
        AND last.request >> 32 = append_write.request >> 32 AND last.role = session_user
        AND member.role = session_user AND member.client = append_write.client AND member.client >= 0 AND value IS NOT NULL
        -- In a log that is shorter than that no limit is near.
        AND known < {OTHER_ROW_LIMIT} AND coalesce(octet_length(append_write.process) <= {PROCESS_LIMIT}, true)
        AND coalesce(octet_length(append_write.note) <= {NOTE_LIMIT}, true)
    ON CONFLICT DO NOTHING;
    IF FOUND THEN
        RETURN known;
    END IF;
    RETURN cindrolf.append(
        append_write.log, known, known_chain, append_write.request, ARRAY[8::smallint], ARRAY[append_write.client],
        ARRAY[int8send(value)], append_write.process, ARRAY[append_write.note]
    );
END $$;
