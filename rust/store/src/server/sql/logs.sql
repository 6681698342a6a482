-- Row 0 of each log: the fresh log, and the version of the rules by which its rows are replayed.
CREATE TABLE cindrolf.logs (
    log integer GENERATED ALWAYS AS IDENTITY PRIMARY KEY,
    name text NOT NULL UNIQUE,
    rules bigint NOT NULL,
    client_count bigint NOT NULL,
    entry_words bigint NOT NULL, -- 4096, or 512 on a small cartridge
    chain bytea NOT NULL, -- over the three numbers
    created timestamptz NOT NULL DEFAULT clock_timestamp(),
    role text NOT NULL DEFAULT session_user,
    creation bigint -- drawn by the one who made it, to find its own; none where it drew none
);
