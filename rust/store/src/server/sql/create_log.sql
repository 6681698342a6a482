-- Makes a fresh log, and says whether it is the caller's: not where somebody made one of this name before. `creation` is a
-- number that the caller draws at random for the log: where the log of this name has it, and the same role and numbers, this
-- is the same message, sent again. The lock makes that answer wait for the disk, and for the standby.
CREATE FUNCTION cindrolf.create_log(
    name text, rules bigint, client_count bigint, entry_words bigint, chain bytea, creation bigint DEFAULT NULL
) RETURNS boolean LANGUAGE plpgsql SECURITY DEFINER SET search_path = pg_catalog, pg_temp AS $$
#variable_conflict use_column
DECLARE
    row_0 bytea := substring(sha256(int8send(rules) || int8send(client_count) || int8send(entry_words)) FOR 16);
BEGIN
    IF NOT EXISTS (SELECT FROM cindrolf.members WHERE role = session_user AND client >= -2) THEN
        RAISE EXCEPTION 'role % makes no logs', session_user USING ERRCODE = '42501';
    END IF;
    IF (octet_length(create_log.name) BETWEEN 1 AND {LOG_NAME_LIMIT} AND create_log.rules >= 1
        AND create_log.client_count BETWEEN 1 AND 16 AND create_log.entry_words IN (512, 4096)
        AND create_log.chain = row_0) IS NOT TRUE
    THEN
        RAISE EXCEPTION 'no log is made of these' USING ERRCODE = '22023';
    END IF;
    INSERT INTO cindrolf.logs (name, rules, client_count, entry_words, chain, creation)
    VALUES (create_log.name, create_log.rules, create_log.client_count, create_log.entry_words, row_0,
        create_log.creation)
    ON CONFLICT (name) DO NOTHING;
    IF NOT FOUND THEN
        PERFORM FROM cindrolf.logs
        WHERE name = create_log.name AND creation = create_log.creation AND role = session_user AND chain = row_0
        FOR NO KEY UPDATE;
    END IF;
    RETURN FOUND;
END $$;
