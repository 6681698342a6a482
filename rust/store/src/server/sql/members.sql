-- Which role steps for which client, in all logs of the database.
CREATE TABLE cindrolf.members (
    role name NOT NULL,
    -- 0 to 15; -1 an administrator, who changes rights and members; -2 the election service, which names any client;
    -- -3 the audit
    client smallint NOT NULL CHECK (client BETWEEN -3 AND 15),
    names boolean NOT NULL DEFAULT false, -- whether the role may also name this client as leader
    PRIMARY KEY (role, client)
);

-- Who admitted and dismissed whom.
CREATE TABLE cindrolf.admissions (
    time timestamptz NOT NULL DEFAULT clock_timestamp(),
    by text NOT NULL DEFAULT session_user,
    role name NOT NULL,
    client smallint NOT NULL,
    names boolean -- none for a dismissal
);
