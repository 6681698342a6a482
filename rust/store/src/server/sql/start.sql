-- A start number that was never given for this log: the server's timeline in the high 12 bits, and a count in the low
-- 20. The timeline changes with each promotion and recovery from an archive, so that a number that was lost in one is
-- not given again. 0 where there is none left: after 2^20 on one timeline, after timeline 4095, and for a role that has
-- had its share, so that none uses up those of the others.
CREATE FUNCTION cindrolf.start(log integer) RETURNS bigint
LANGUAGE plpgsql SECURITY DEFINER SET search_path = pg_catalog, pg_temp
SET enable_seqscan = off SET enable_bitmapscan = off AS $$
#variable_conflict use_column
DECLARE
    timeline bigint;
    number bigint;
    had integer;
BEGIN
    IF NOT EXISTS (SELECT FROM cindrolf.members WHERE role = session_user AND client >= -2) THEN
        RAISE EXCEPTION 'role % steps for no client', session_user USING ERRCODE = '42501';
    END IF;
    PERFORM FROM cindrolf.logs WHERE log = start.log FOR NO KEY UPDATE;
    IF NOT FOUND THEN
        RAISE EXCEPTION 'there is no log %', start.log USING ERRCODE = '42704';
    END IF;
    -- The name of the file that is written now begins with it. The control file tells it too late after a promotion.
    timeline := ('x' || left(pg_walfile_name(pg_current_wal_insert_lsn()), 8))::bit(32)::bigint;
    SELECT coalesce(max(start) + 1, timeline << 20) INTO number
    FROM cindrolf.starts WHERE log = start.log AND start BETWEEN timeline << 20 AND (timeline << 20) + 1048575;
    SELECT coalesce(max(nth), 0) INTO had FROM cindrolf.starts WHERE log = start.log AND role = session_user;
    IF timeline > 4095 OR number >> 20 <> timeline OR had >= {CLIENT_ROW_LIMIT} THEN
        RETURN 0;
    END IF;
    INSERT INTO cindrolf.starts (log, start, role, nth) VALUES (start.log, number, session_user, had + 1);
    RETURN number;
END $$;
