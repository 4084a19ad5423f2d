-- The stores of a hall group in PostgreSQL, 14 or later: the schema raspteal. `hub-group init` reads this file into a
-- database; what stands there already is left alone. docs/GROUP.md says what holds.
CREATE SCHEMA IF NOT EXISTS raspteal;

-- A store is one row: the two buffers of the library, how often they were changed, and which call of whom was the last.
CREATE TABLE IF NOT EXISTS raspteal.store (
    name text PRIMARY KEY,
    version bigint NOT NULL DEFAULT 0,
    call uuid NOT NULL,
    role name NOT NULL DEFAULT current_user,
    index bytea NOT NULL,
    text bytea NOT NULL
);

-- The bytes are packed quickly where the server can (docs/GROUP.md has the figures), else as PostgreSQL packs others.
DO $$ BEGIN
    ALTER TABLE raspteal.store ALTER index SET COMPRESSION lz4, ALTER text SET COMPRESSION lz4;
EXCEPTION WHEN feature_not_supported THEN
    NULL;
END $$;

-- Who may write as which party where he does not own the table: 1 to 255 is an organiser, 0 the hall.
CREATE TABLE IF NOT EXISTS raspteal.party (
    store text NOT NULL REFERENCES raspteal.store ON DELETE CASCADE,
    role name NOT NULL,
    party int NOT NULL CHECK (party BETWEEN 0 AND 255),
    PRIMARY KEY (store, role, party)
);

-- Each call that changed a store, under the version that it made. A hub that lost its answer finds it here.
CREATE TABLE IF NOT EXISTS raspteal.call (
    call uuid PRIMARY KEY,
    store text NOT NULL REFERENCES raspteal.store ON DELETE CASCADE,
    version bigint NOT NULL,
    role name NOT NULL,
    at timestamptz NOT NULL DEFAULT now(),
    UNIQUE (store, version)
);

-- Where the records of the lines start: the parties' shares stand before them, by owner, none of 0 bytes, and one over
-- 65535 with four bytes.
CREATE OR REPLACE FUNCTION raspteal.front(index bytea) RETURNS int LANGUAGE plpgsql IMMUTABLE
    SET search_path = pg_catalog, pg_temp AS $$
DECLARE
    at int := 0;
    owner int := -1;
BEGIN
    WHILE at + 4 <= length(index) AND get_byte(index, at) = 4
        OR at + 6 <= length(index) AND get_byte(index, at) = 6 LOOP
        -- two bytes that are not 0, or the first two of four
        IF get_byte(index, at + 1) <= owner OR get_byte(index, at + 2) + get_byte(index, at + 3) = 0 THEN
            RAISE EXCEPTION 'not a sound store';
        END IF;
        owner := get_byte(index, at + 1);
        at := at + CASE get_byte(index, at) WHEN 4 THEN 4 ELSE 6 END;
    END LOOP;
    RETURN at;
END $$;

-- The lines of a sound store, in their order; owner 0 is the hall. A record has four bytes of offset where that is over
-- 65535, and two otherwise. Bytes that are no sound store are an error.
CREATE OR REPLACE FUNCTION raspteal.lines(index bytea, text bytea)
    RETURNS TABLE (owner int, uuid bytea, line bytea) LANGUAGE plpgsql IMMUTABLE
    SET search_path = pg_catalog, pg_temp AS $$
DECLARE
    -- `||` takes the bytes out of the row once, and not for each record
    i CONSTANT bytea := index || ''::bytea;
    t CONSTANT bytea := text || ''::bytea;
    sound boolean := true;
    at int := raspteal.front(i);
    used int := 0;
    body int;
    width int;
    starts bigint;
    size int;
BEGIN
    WHILE sound AND at < length(i) AND get_byte(i, at) <> 0 LOOP
        body := at + CASE get_byte(i, at) WHEN 1 THEN 1 WHEN 2 THEN 1 WHEN 3 THEN 2 WHEN 5 THEN 2 ELSE length(i) END;
        width := CASE WHEN used > 65535 THEN 4 ELSE 2 END;
        sound := body + 18 + width <= length(i) AND (get_byte(i, at) IN (2, 5)) = (width = 4);
        EXIT WHEN NOT sound;
        owner := CASE body - at WHEN 2 THEN get_byte(i, at + 1) ELSE 0 END;
        uuid := substr(i, body + 1, 16);
        starts := get_byte(i, body + 14 + width) * 256 + get_byte(i, body + 15 + width);
        IF width = 4 THEN
            starts := starts + (get_byte(i, body + 16)::bigint * 256 + get_byte(i, body + 17)) * 65536;
        END IF;
        size := get_byte(i, body + 16 + width) * 256 + get_byte(i, body + 17 + width);
        line := substr(t, used + 1, size);
        sound := (owner > 0 OR body - at = 1) AND starts = used AND size BETWEEN 1 AND 16384 AND length(line) = size;
        at := body + 18 + width;
        used := used + size;
        RETURN NEXT;
    END LOOP;
    IF NOT sound OR btrim(substr(i, at + 1), '\x00') <> '' OR btrim(substr(t, used + 1), '\x00') <> '' THEN
        RAISE EXCEPTION 'not a sound store';
    END IF;
END $$;

-- Whether two stores hold the same lines but for those of some parties, the second with no UUID twice, and the same shares
-- unless the hall is among them, who gives them.
CREATE OR REPLACE FUNCTION raspteal.alike(old_index bytea, old_text bytea, index bytea, text bytea, but int[])
    RETURNS boolean LANGUAGE sql IMMUTABLE SET search_path = pg_catalog, pg_temp AS $$
    WITH old AS (SELECT * FROM raspteal.lines(old_index, old_text)),
        new AS (SELECT * FROM raspteal.lines(index, text))
    SELECT NOT EXISTS (SELECT * FROM old WHERE owner <> ALL (but) EXCEPT SELECT * FROM new)
        AND NOT EXISTS (SELECT * FROM new WHERE owner <> ALL (but) EXCEPT SELECT * FROM old)
        AND NOT EXISTS (SELECT FROM new GROUP BY owner, uuid HAVING count(*) > 1)
        AND (0 = ANY (but) OR substr(old_index, 1, raspteal.front(old_index)) = substr(index, 1, raspteal.front(index)))
$$;

-- Before a change: it is the next one, and leaves the lines of parties alone that the role does not write as. Whoever
-- owns the table is not asked; the hall alone may empty a store. The search path is set, so that no role puts functions
-- of its own in the place of the database's.
CREATE OR REPLACE FUNCTION raspteal.before_change() RETURNS trigger LANGUAGE plpgsql
    SET search_path = pg_catalog, pg_temp AS $$
DECLARE
    parties int[];
BEGIN
    IF NEW.name <> OLD.name OR NEW.version <> OLD.version + 1 OR NEW.call = OLD.call
        OR length(NEW.index) <> length(OLD.index) OR length(NEW.text) <> length(OLD.text) THEN
        RAISE EXCEPTION 'a change is a call of its own with the next version, and keeps the name and both lengths';
    END IF;
    NEW.role := current_user;
    IF pg_has_role((SELECT relowner FROM pg_class WHERE oid = TG_RELID), 'USAGE') THEN
        RETURN NEW;
    END IF;
    parties := ARRAY(SELECT party FROM raspteal.party JOIN pg_roles ON rolname = party.role
        WHERE store = NEW.name AND pg_has_role(pg_roles.oid, 'USAGE'));
    IF parties = '{}' OR NOT (
        0 = ANY (parties) AND btrim(NEW.index, '\x00') = '' AND btrim(NEW.text, '\x00') = ''
        OR raspteal.alike(OLD.index, OLD.text, NEW.index, NEW.text, parties)) THEN
        RAISE insufficient_privilege USING MESSAGE = format('%s may write in store %s as party %s, and as no other',
            current_user, NEW.name, CASE parties WHEN '{}' THEN 'none' ELSE array_to_string(parties, ', ') END);
    END IF;
    RETURN NEW;
END $$;

-- After it: the call is written down, and who listens is told when it is committed.
CREATE OR REPLACE FUNCTION raspteal.after_change() RETURNS trigger LANGUAGE plpgsql
    SECURITY DEFINER SET search_path = pg_catalog, pg_temp AS $$
BEGIN
    INSERT INTO raspteal.call (call, store, version, role) VALUES (NEW.call, NEW.name, NEW.version, NEW.role);
    PERFORM pg_notify('raspteal', NEW.name);
    RETURN NULL;
END $$;

CREATE OR REPLACE TRIGGER before_change BEFORE UPDATE ON raspteal.store
    FOR EACH ROW EXECUTE FUNCTION raspteal.before_change();
CREATE OR REPLACE TRIGGER after_change AFTER UPDATE ON raspteal.store
    FOR EACH ROW EXECUTE FUNCTION raspteal.after_change();

-- Lets a role read all stores, and write in one of them as a party.
CREATE OR REPLACE FUNCTION raspteal.allow(store text, role name, party int) RETURNS void LANGUAGE plpgsql AS $$
BEGIN
    INSERT INTO raspteal.party VALUES (store, role, party) ON CONFLICT DO NOTHING;
    EXECUTE format('GRANT USAGE ON SCHEMA raspteal TO %I', role);
    EXECUTE format('GRANT SELECT ON ALL TABLES IN SCHEMA raspteal TO %I', role);
    EXECUTE format('GRANT UPDATE (version, call, index, text) ON raspteal.store TO %I', role);
END $$;
