-- How many rows come before those of a request, or -1 where it has none. One may still come then. What is answered is
-- on the disk, and on the standby: the lock makes the answer wait for it.
CREATE FUNCTION cindrolf.settle(log integer, request bigint) RETURNS bigint
LANGUAGE plpgsql SECURITY DEFINER SET search_path = pg_catalog, pg_temp
SET enable_seqscan = off SET enable_bitmapscan = off AS $$
#variable_conflict use_column
BEGIN
    PERFORM FROM cindrolf.logs WHERE log = settle.log FOR NO KEY UPDATE;
    RETURN coalesce(
        (SELECT seq - 1 FROM cindrolf.rows WHERE log = settle.log AND request = settle.request AND part = 0), -1
    );
END $$;
