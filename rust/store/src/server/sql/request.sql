-- What `append` asks of a request before it adds its rows. They are called by it alone, and granted to nobody.

-- Which step of a request, from 1, the caller may not take; none where it may take all.
CREATE FUNCTION cindrolf.first_forbidden(kinds smallint[], clients bigint[]) RETURNS integer LANGUAGE plpgsql AS $$
#variable_conflict use_column
DECLARE
    allowed bigint; -- a client whose steps the caller takes
BEGIN
    FOR step IN 1 .. cardinality(kinds) LOOP
        CONTINUE WHEN kinds[step] BETWEEN 1 AND 10 AND clients[step] = allowed;
        PERFORM FROM cindrolf.members
        WHERE role = session_user AND client = clients[step] AND kinds[step] BETWEEN 1 AND 10 AND client >= 0;
        IF NOT FOUND AND NOT cindrolf.may_take(session_user, kinds[step], clients[step]) THEN
            RETURN step;
        END IF;
        allowed := CASE WHEN kinds[step] BETWEEN 1 AND 10 THEN clients[step] END;
    END LOOP;
    RETURN NULL;
END $$;

-- How many steps a request has. 22023: one is none. 42501: the caller may not take one.
CREATE FUNCTION cindrolf.steps_of(kinds smallint[], clients bigint[], inputs bytea[], process text, notes text[])
RETURNS integer LANGUAGE plpgsql AS $$
DECLARE
    steps integer := cardinality(kinds);
    forbidden integer;
BEGIN
    IF (steps > 0 AND steps = cardinality(clients) AND steps = cardinality(inputs)
        AND steps = coalesce(cardinality(notes), steps)) IS NOT TRUE OR octet_length(process) > {PROCESS_LIMIT}
    THEN
        RAISE EXCEPTION 'no list of steps' USING ERRCODE = '22023';
    END IF;
    FOR step IN 1 .. steps LOOP
        IF NOT cindrolf.is_step(kinds[step], clients[step], inputs[step])
            OR octet_length(notes[step]) > {NOTE_LIMIT}
        THEN
            RAISE EXCEPTION 'step % of the request is none', step - 1 USING ERRCODE = '22023';
        END IF;
    END LOOP;
    forbidden := cindrolf.first_forbidden(kinds, clients);
    IF forbidden IS NOT NULL THEN
        RAISE EXCEPTION 'role % takes no step % for client %', session_user, kinds[forbidden], clients[forbidden]
            USING ERRCODE = '42501';
    END IF;
    RETURN steps;
END $$;

-- How many rows there are in each slot with those of a request after row `last`, where `counts` is what that row has. None
-- in a log that is so short that no limit is near. 54000: there is no room for one.
CREATE FUNCTION cindrolf.counts_with(log integer, last bigint, counts integer[], kinds smallint[], clients bigint[])
RETURNS integer[] LANGUAGE plpgsql AS $$
DECLARE
    slot integer;
BEGIN
    IF last + cardinality(kinds) <= {OTHER_ROW_LIMIT} THEN
        RETURN NULL;
    END IF;
    counts := coalesce(counts, cindrolf.counted(log));
    FOR step IN 1 .. cardinality(kinds) LOOP
        slot := cindrolf.slot(kinds[step], clients[step]) + 1;
        counts[slot] := counts[slot] + 1;
        IF counts[slot] > cindrolf.room(slot - 1) THEN
            RAISE EXCEPTION 'there is no room for another row of client %', clients[step] USING ERRCODE = '54000';
        END IF;
    END LOOP;
    RETURN counts;
END $$;

-- The chain values of the rows of a request, after that of the row before them.
CREATE FUNCTION cindrolf.chains_after(
    before bytea, request bigint, kinds smallint[], clients bigint[], inputs bytea[]
) RETURNS bytea[] LANGUAGE plpgsql IMMUTABLE AS $$
DECLARE
    chains bytea[];
BEGIN
    FOR step IN 1 .. cardinality(kinds) LOOP
        before := cindrolf.chain_value(before, request, step - 1, kinds[step], clients[step], inputs[step]);
        chains[step] := before;
    END LOOP;
    RETURN chains;
END $$;
