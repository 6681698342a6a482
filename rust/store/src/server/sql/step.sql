-- What the server knows of steps. It takes none: it sees only to their form, to who asks, and to how many there are.

-- Whether a row may hold this. A row that could be no step would end the log for everybody.
CREATE FUNCTION cindrolf.is_step(kind smallint, client bigint, input bytea) RETURNS boolean LANGUAGE sql IMMUTABLE
RETURN CASE
    WHEN kind IN (11, 12) THEN client IS NULL AND octet_length(input) = 8
    WHEN kind IN (8, 13) THEN client IS NOT NULL AND octet_length(input) = 8
    WHEN kind = 10 THEN client IS NOT NULL AND octet_length(input) <= {FIELD_LIMIT} AND octet_length(input) % 2 = 0
    WHEN kind BETWEEN 0 AND 9 THEN client IS NOT NULL AND octet_length(input) = 0
    ELSE false
END IS TRUE;

-- Where the rows of a step are counted: with its client's, or with the others' in 16.
CREATE FUNCTION cindrolf.slot(kind smallint, client bigint) RETURNS integer LANGUAGE sql IMMUTABLE
RETURN CASE WHEN kind <= 10 AND client BETWEEN 0 AND 15 THEN client::integer ELSE 16 END;

-- How many rows a slot takes, so that no client uses up those of the others.
CREATE FUNCTION cindrolf.room(slot integer) RETURNS integer LANGUAGE sql IMMUTABLE
RETURN CASE slot WHEN 16 THEN {OTHER_ROW_LIMIT} ELSE {CLIENT_ROW_LIMIT} END;

-- Whether a role may take a step. To name a client as leader is a step of its own.
CREATE FUNCTION cindrolf.may_take(role name, kind smallint, client bigint) RETURNS boolean LANGUAGE sql STABLE
RETURN EXISTS (
    SELECT FROM cindrolf.members AS member
    WHERE member.role = may_take.role AND CASE
        WHEN kind = 0 THEN member.client = -2 OR member.client = may_take.client AND member.names
        WHEN kind <= 10 THEN member.client = may_take.client AND member.client >= 0
        WHEN kind = 13 THEN member.client = -1
        ELSE member.client >= -2
    END
);

-- Whether the start number in the id of a request was given to this role. Null where the log never gave it.
CREATE FUNCTION cindrolf.is_start_of(log integer, request bigint, role name) RETURNS boolean LANGUAGE sql STABLE
RETURN (
    SELECT given.role IS NOT DISTINCT FROM is_start_of.role FROM cindrolf.starts AS given
    WHERE given.log = is_start_of.log AND given.start = (request >> 32 & 4294967295)
);

-- The chain value of a row, after that of the row before. docs/SHARING.md has its bytes.
CREATE FUNCTION cindrolf.chain_value(
    before bytea, request bigint, part bigint, kind smallint, client bigint, input bytea
) RETURNS bytea LANGUAGE sql IMMUTABLE
RETURN substring(
    sha256(before || int8send(request) || int8send(part) || int8send(kind) || int8send(coalesce(client, 0)) || input)
    FOR 16
);

-- The chain value of a row of a log.
CREATE FUNCTION cindrolf.chain_at(log integer, seq bigint) RETURNS bytea LANGUAGE sql STABLE
RETURN (SELECT chain FROM cindrolf.rows WHERE rows.log = chain_at.log AND rows.seq = chain_at.seq);

-- How many rows of a log are in each slot.
CREATE FUNCTION cindrolf.counted(log integer) RETURNS integer[] LANGUAGE sql STABLE
RETURN (
    SELECT array_agg(coalesce(found.rows, 0) ORDER BY slot)
    FROM generate_series(0, 16) AS slot
    LEFT JOIN (
        SELECT cindrolf.slot(kind, client) AS slot, count(*)::integer AS rows
        FROM cindrolf.rows WHERE rows.log = counted.log GROUP BY 1
    ) AS found USING (slot)
);
