CREATE TABLE journal ( -- a row for each step of a request: what was asked for, in the order of its acceptance
    seq INTEGER PRIMARY KEY, -- 1, 2, 3 and so on
    request INTEGER NOT NULL, -- the id of the request
    part INTEGER NOT NULL, -- which step of the request it is, from 0
    kind INTEGER NOT NULL, -- a step's number 0 to 9; 10 write scores, 11 set mark, 12 drop mark, 13 set rights
    client INTEGER,
    input ANY, -- a value, scores of two bytes each, the name of a mark, or a client's word of rights
    answer INTEGER NOT NULL, -- the library's number for it; a refused step changes nothing
    value INTEGER, -- what a write of scores has stored
    chain BLOB NOT NULL, -- over this row's request, part, kind, client and input, and the chain of the row before
    time INTEGER, -- microseconds since 1970, UTC
    process TEXT, -- the process that asked
    note TEXT
) STRICT
