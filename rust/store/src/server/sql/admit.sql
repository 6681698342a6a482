-- Administrators, and the owner of the tables, say who steps for which client.

CREATE FUNCTION cindrolf.is_administrator() RETURNS boolean LANGUAGE sql STABLE
RETURN session_user = current_user OR EXISTS (SELECT FROM cindrolf.members WHERE role = session_user AND client = -1);

-- Has a role step for a client from now on, and says whether it also names it.
CREATE FUNCTION cindrolf.admit(role name, client integer, names boolean DEFAULT false) RETURNS void
LANGUAGE plpgsql SECURITY DEFINER SET search_path = pg_catalog, pg_temp AS $$
BEGIN
    IF NOT cindrolf.is_administrator() THEN
        RAISE EXCEPTION 'role % admits nobody', session_user USING ERRCODE = '42501';
    ELSIF NOT EXISTS (SELECT FROM pg_roles WHERE rolname = admit.role) THEN
        RAISE EXCEPTION 'there is no role %', admit.role USING ERRCODE = '42704';
    ELSIF (admit.client BETWEEN -3 AND 15 AND (admit.client >= 0 OR NOT admit.names)) IS NOT TRUE THEN
        RAISE EXCEPTION 'no role is admitted so' USING ERRCODE = '22023';
    END IF;
    INSERT INTO cindrolf.members AS m (role, client, names) VALUES (admit.role, admit.client, admit.names)
    ON CONFLICT ON CONSTRAINT members_pkey DO UPDATE SET names = excluded.names;
    INSERT INTO cindrolf.admissions (role, client, names) VALUES (admit.role, admit.client, admit.names);
END $$;

-- Has a role step for a client no longer.
CREATE FUNCTION cindrolf.dismiss(role name, client integer) RETURNS void
LANGUAGE plpgsql SECURITY DEFINER SET search_path = pg_catalog, pg_temp AS $$
BEGIN
    IF NOT cindrolf.is_administrator() THEN
        RAISE EXCEPTION 'role % dismisses nobody', session_user USING ERRCODE = '42501';
    END IF;
    DELETE FROM cindrolf.members AS m WHERE m.role = dismiss.role AND m.client = dismiss.client;
    IF NOT FOUND THEN
        RAISE EXCEPTION 'role % does not step for client %', dismiss.role, dismiss.client USING ERRCODE = '42704';
    END IF;
    INSERT INTO cindrolf.admissions (role, client) VALUES (dismiss.role, dismiss.client);
END $$;
