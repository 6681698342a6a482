-- Roles that an administrator grants to those who log in. They hold for all databases of a server.
DO $$
DECLARE
    name text;
BEGIN
    IF current_setting('server_encoding') <> 'UTF8' THEN
        RAISE EXCEPTION 'the database has the encoding %, and notes need UTF8', current_setting('server_encoding');
    END IF;
    FOREACH name IN ARRAY ARRAY['cindrolf_controller', 'cindrolf_reader', 'cindrolf_auditor', 'cindrolf_admin'] LOOP
        IF NOT EXISTS (SELECT FROM pg_catalog.pg_roles WHERE rolname = name) THEN
            EXECUTE format('CREATE ROLE %I NOLOGIN', name);
        END IF;
    END LOOP;
END $$;

CREATE SCHEMA cindrolf;

-- The version of these tables and functions: a program that knows another refuses them.
CREATE FUNCTION cindrolf.version() RETURNS integer LANGUAGE sql IMMUTABLE AS 'SELECT {VERSION}';
