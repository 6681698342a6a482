-- A row for each step of a request: what was asked for, in the order of its acceptance.
CREATE TABLE cindrolf.rows (
    log integer NOT NULL,
    seq bigint NOT NULL, -- 1, 2, 3 and so on
    request bigint NOT NULL, -- the id of the request
    part bigint NOT NULL, -- which step of the request it is, from 0
    kind smallint NOT NULL, -- a step's number 0 to 9; 10 write scores, 11 set mark, 12 drop mark, 13 set rights
    client bigint, -- none for marks
    input bytea NOT NULL, -- a value or a word of rights in 8 bytes, scores of 2 each, a mark's name of 8, or none
    chain bytea NOT NULL, -- over this row's request, part, kind, client and input, and the chain of the row before
    time timestamptz, -- when it was stored; none where it was copied from a log that did not tell
    process text, -- the process that asked, as it calls itself
    note text,
    role text NOT NULL DEFAULT session_user, -- as the server knows who asked
    -- How many rows of each client, and of others, there are up to this one: in the last row of a request, and only
    -- in a long log, where the limits are near. A table of counts would leave a dead version behind for each append.
    counts integer[],
    PRIMARY KEY (log, seq)
);

CREATE UNIQUE INDEX requests ON cindrolf.rows (log, request, part);
