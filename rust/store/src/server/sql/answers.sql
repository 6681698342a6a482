-- How each row is answered, as the audit found by replay: without a gap from row 1 on.
CREATE TABLE cindrolf.answers (
    log integer NOT NULL,
    seq bigint NOT NULL,
    answer bigint NOT NULL, -- the library's number for it; a refused step changes nothing
    value bigint, -- what a write of scores has stored
    PRIMARY KEY (log, seq)
);
