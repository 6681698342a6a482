-- The start numbers that were given, and to whom. An id of a request begins with one: so no controller takes the ids of
-- another, and a number that is not here was given in a history that is lost.
CREATE TABLE cindrolf.starts (
    log integer NOT NULL,
    start bigint NOT NULL,
    role text, -- none for those of copied rows
    nth integer, -- of those that the role was given
    time timestamptz NOT NULL DEFAULT clock_timestamp(),
    PRIMARY KEY (log, start)
);

CREATE UNIQUE INDEX shares ON cindrolf.starts (log, role, nth);
