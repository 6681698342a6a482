CREATE TABLE log ( -- row 0: the fresh log, and the version of the rules by which the rows are replayed
    id INTEGER PRIMARY KEY CHECK (id = 1),
    rules INTEGER NOT NULL,
    client_count INTEGER NOT NULL,
    entry_words INTEGER NOT NULL, -- 4096, or 512 on a small cartridge
    chain BLOB NOT NULL -- over the three numbers
) STRICT
