-- What the views are made of. They are over the rows that the audit has answered, and for each log apart, so that one
-- who asks for a single log does not wait for all.

-- The number in 8 bytes.
CREATE FUNCTION cindrolf.number_of(input bytea) RETURNS bigint LANGUAGE sql IMMUTABLE
RETURN ('x' || encode(input, 'hex'))::bit(64)::bigint;

-- A time as the file of a log has it.
CREATE FUNCTION cindrolf.time_of(moment timestamptz) RETURNS text LANGUAGE sql STABLE
RETURN to_char(moment AT TIME ZONE 'UTC', 'YYYY-MM-DD"T"HH24:MI:SS.US"Z"');

-- A mark's name without the zeros at its end. Any eight bytes are a name: those that are no text are shown escaped.
CREATE FUNCTION cindrolf.mark_name(input bytea) RETURNS text LANGUAGE plpgsql IMMUTABLE
SET search_path = pg_catalog, pg_temp AS $$
BEGIN
    RETURN convert_from(rtrim(input, '\x00'), 'UTF8');
EXCEPTION WHEN character_not_in_repertoire OR untranslatable_character THEN
    RETURN encode(rtrim(input, '\x00'), 'escape');
END $$;
