-- The log of boards in PostgreSQL (14 or newer). `cdmboard log init URL` runs this file, in one transaction, as a superuser or as the
-- database's owner with CREATEROLE; run again, it changes nothing but brings older tables up to date. A server's own user gets all that
-- it needs by `GRANT cdm_server TO user`, and whoever only reads by `GRANT cdm_reader TO user`.
DO $$ BEGIN
    IF NOT has_database_privilege(current_database(), 'CREATE') THEN
        RAISE EXCEPTION 'permission denied: log init needs a superuser, or the owner of the database with CREATEROLE';
    END IF;
    IF NOT EXISTS (SELECT FROM pg_roles WHERE rolname = 'cdm_owner') THEN CREATE ROLE cdm_owner NOLOGIN; END IF;
    IF NOT EXISTS (SELECT FROM pg_roles WHERE rolname = 'cdm_server') THEN CREATE ROLE cdm_server NOLOGIN; END IF;
    IF NOT EXISTS (SELECT FROM pg_roles WHERE rolname = 'cdm_reader') THEN CREATE ROLE cdm_reader NOLOGIN; END IF;
    -- Who is no superuser may give a table to a role that it may become, and which may create in the schema; both until the end. From 16 on a
    -- member, as whoever made the role is, may not become it by that alone.
    IF NOT pg_has_role(current_user, 'cdm_owner', CASE WHEN current_setting('server_version_num')::integer < 160000 THEN 'MEMBER' ELSE 'SET' END) THEN
        EXECUTE format('GRANT cdm_owner TO %I', current_user);
        PERFORM set_config('cdmboard.was_member', 'no', true);
    END IF;
    GRANT CREATE ON SCHEMA public TO cdm_owner;
END $$;

CREATE TABLE IF NOT EXISTS public.cdm_log (
    board text PRIMARY KEY, id text NOT NULL, airport bytea NOT NULL, version text NOT NULL);
-- The key of the board's cookies, which only its servers may know: 244 random bits.
ALTER TABLE public.cdm_log ADD COLUMN IF NOT EXISTS
    secret text NOT NULL DEFAULT replace(gen_random_uuid()::text || gen_random_uuid()::text, '-', '');
CREATE TABLE IF NOT EXISTS public.cdm_record (
    board text NOT NULL,
    position integer NOT NULL CHECK (position >= 1),
    desk text NOT NULL, key text, n integer NOT NULL, lines integer NOT NULL,
    role text NOT NULL CHECK (role IN ('AO', 'GH', 'AP', 'ATC', 'NM')),
    line text NOT NULL CHECK (line COLLATE "C" ~ '^[ !#-~]{1,100}$'),
    at text NOT NULL,
    UNIQUE (board, position), UNIQUE (board, desk, key, n));
-- What a server can't read ends all servers of a board, so no login writes it: a line of blanks, a time or an id of another form.
DO $$ BEGIN
    IF NOT EXISTS (SELECT FROM pg_constraint WHERE conname = 'cdm_record_readable') THEN
        ALTER TABLE public.cdm_record ADD CONSTRAINT cdm_record_readable
            CHECK (line ~ '[^ ]' AND at ~ '^[0-9A-Za-z:.+-]{1,40}$' AND length(desk) <= 64 AND length(key) <= 64) NOT VALID;
        ALTER TABLE public.cdm_log ADD CONSTRAINT cdm_log_readable CHECK (id ~ '^[0-9A-Za-z]{1,32}$') NOT VALID;
    END IF;
END $$;
-- A log has any number of days; those of a release before had one, of 60,000 records at most.
DO $$ BEGIN
    IF EXISTS (SELECT FROM pg_constraint WHERE conname = 'cdm_record_position_check' AND pg_get_constraintdef(oid) LIKE '%60000%') THEN
        ALTER TABLE public.cdm_record DROP CONSTRAINT cdm_record_position_check;
        ALTER TABLE public.cdm_record ADD CONSTRAINT cdm_record_position_check CHECK (position >= 1) NOT VALID;
    END IF;
END $$;
-- What stands beside a change of day, which is a record: the airport file from there on, and the feed with which the new day begins.
CREATE TABLE IF NOT EXISTS public.cdm_day (
    board text NOT NULL, position integer NOT NULL, airport bytea NOT NULL, feed bytea NOT NULL,
    digest text NOT NULL CHECK (digest = encode(sha256(airport || feed), 'hex')), PRIMARY KEY (board, position));
-- What no server reads within its time, or at all, would stand before all that comes behind it.
DO $$ BEGIN
    IF NOT EXISTS (SELECT FROM pg_constraint WHERE conname = 'cdm_day_readable') THEN
        ALTER TABLE public.cdm_day ADD CONSTRAINT cdm_day_readable
            CHECK (octet_length(airport) <= 8388608 AND octet_length(feed) <= 8388608) NOT VALID;
    END IF;
END $$;
-- Sessions of a desk are numbered from 0; those before `not_before` have ended.
CREATE TABLE IF NOT EXISTS public.cdm_session (
    board text NOT NULL, desk text NOT NULL, not_before integer NOT NULL, PRIMARY KEY (board, desk));
-- Digests of all replies up to a position, by which a program that replies otherwise is found.
CREATE TABLE IF NOT EXISTS public.cdm_digest (
    board text NOT NULL, position integer NOT NULL, digest text NOT NULL CHECK (digest ~ '^[0-9a-f]{64}$'), PRIMARY KEY (board, position));
-- No server makes one of another position, and none could be compared with it.
DO $$ BEGIN
    IF NOT EXISTS (SELECT FROM pg_constraint WHERE conname = 'cdm_digest_made') THEN
        ALTER TABLE public.cdm_digest ADD CONSTRAINT cdm_digest_made CHECK (position % 1000 = 0) NOT VALID;
    END IF;
END $$;
-- Who did what, and from where; for records the first position and how many there are.
CREATE TABLE IF NOT EXISTS public.cdm_audit (
    board text NOT NULL, number bigint GENERATED ALWAYS AS IDENTITY PRIMARY KEY, at text NOT NULL, event text NOT NULL, desk text,
    address text, position integer, count integer, detail text);
CREATE INDEX IF NOT EXISTS cdm_audit_board ON public.cdm_audit (board, event);

-- Takes batches of records, in their order, and returns one answer for each: {"first": position, "count": n}, or
-- {"status": 403, 422 or 503, "closed": whether the batch says why itself}. A batch with a change of day is taken only at the position for
-- which it was made. A board that is new is made where id, airport and version are given.
-- The lock of the board's row is held until the commit has ended, so positions become visible in their order and without a gap. Only who
-- may change the row can take it. Each statement below it sees what was committed before the lock was had, which needs `read committed`.
-- The lock is written to the database's log, so each commit waits for the standby, even if it only found a key: a primary that was
-- restarted may have these records alone.
CREATE OR REPLACE FUNCTION public.cdm_append(
    of_board text, batches jsonb, new_id text DEFAULT NULL, new_airport bytea DEFAULT NULL, new_version text DEFAULT NULL)
    RETURNS jsonb LANGUAGE plpgsql VOLATILE SECURITY DEFINER SET search_path = pg_catalog, pg_temp AS $$
DECLARE
    batch jsonb; answers jsonb := '[]'; count_new integer; first_kept integer; kept text[]; sent text[]; last integer; mine integer;
    first_of_day integer;
BEGIN
    IF current_setting('transaction_isolation') <> 'read committed' THEN
        RAISE EXCEPTION 'cdm_append needs the isolation level read committed';
    END IF;
    IF new_id IS NOT NULL THEN
        INSERT INTO public.cdm_log (board, id, airport, version) VALUES (of_board, new_id, new_airport, new_version) ON CONFLICT DO NOTHING;
    END IF;
    PERFORM 1 FROM public.cdm_log WHERE board = of_board FOR UPDATE;
    IF NOT FOUND THEN
        RAISE EXCEPTION 'there is no board %', of_board;
    END IF;
    FOR batch IN SELECT jsonb_array_elements(batches) LOOP
        count_new := jsonb_array_length(batch -> 'records');
        IF batch ->> 'key' IS NOT NULL THEN
            SELECT min(position), array_agg(line ORDER BY n) INTO first_kept, kept FROM public.cdm_record
                WHERE board = of_board AND desk = batch ->> 'desk' AND key = batch ->> 'key';
            IF first_kept IS NOT NULL THEN
                sent := ARRAY(SELECT value ->> 1 FROM jsonb_array_elements(batch -> 'records') WITH ORDINALITY ORDER BY ordinality);
                IF kept = sent THEN
                    answers := answers || jsonb_build_object('first', first_kept, 'count', cardinality(kept));
                ELSE
                    answers := answers || '{"status": 422}'::jsonb;
                END IF;
                CONTINUE;
            END IF;
        END IF;
        IF (batch ->> 'closed')::boolean THEN
            answers := answers || '{"status": 403, "closed": true}'::jsonb;
            CONTINUE;
        END IF;
        SELECT coalesce(max(position), 0) INTO last FROM public.cdm_record WHERE board = of_board;
        SELECT coalesce(max(position), 1) INTO first_of_day FROM public.cdm_day WHERE board = of_board;
        SELECT count(*) INTO mine FROM public.cdm_record WHERE board = of_board AND desk = batch ->> 'desk' AND position >= first_of_day;
        IF batch -> 'change' IS NOT NULL THEN
            IF (batch #>> '{change,position}')::integer <> last + 1 OR count_new <> 1 OR batch #>> '{records,0,0}' <> 'ATC'
                OR batch #>> '{records,0,1}' !~ '^DAY,[0-9]{4}-[0-9]{2}-[0-9]{2}$' THEN
                answers := answers || '{"status": 503}'::jsonb;
                CONTINUE;
            END IF;
            INSERT INTO public.cdm_day VALUES (of_board, last + 1, decode(batch #>> '{change,airport}', 'base64'),
                decode(batch #>> '{change,feed}', 'base64'), batch #>> '{change,digest}');
            -- A server of release 1.0.0 takes all days for one: it refuses a log of another version than its own.
            UPDATE public.cdm_log SET version = version || ' (rules 1)' WHERE board = of_board AND version = 'cdmseq 1.0.0';
        ELSIF last + 1 - first_of_day + count_new > (batch ->> 'end')::integer OR mine + count_new > (batch ->> 'most')::integer THEN
            answers := answers || '{"status": 403, "closed": false}'::jsonb;
            CONTINUE;
        END IF;
        INSERT INTO public.cdm_record
            SELECT of_board, last + ordinality, batch ->> 'desk', batch ->> 'key', ordinality - 1, count_new, value ->> 0, value ->> 1, batch ->> 'at'
            FROM jsonb_array_elements(batch -> 'records') WITH ORDINALITY;
        IF batch ->> 'address' IS NOT NULL THEN
            INSERT INTO public.cdm_audit (board, at, event, desk, address, position, count)
                VALUES (of_board, batch ->> 'at', 'records', batch ->> 'desk', batch ->> 'address', last + 1, count_new);
        END IF;
        answers := answers || jsonb_build_object('first', last + 1, 'count', count_new);
    END LOOP;
    RETURN answers;
END $$;

-- Holds the lock of a board until the transaction ends, or is silent for so long, and returns the last position: a change of day carries over
-- what comes before it.
CREATE OR REPLACE FUNCTION public.cdm_hold(of_board text, silent text)
    RETURNS integer LANGUAGE plpgsql VOLATILE SECURITY DEFINER SET search_path = pg_catalog, pg_temp AS $$
BEGIN
    PERFORM set_config('idle_in_transaction_session_timeout', silent, true);
    PERFORM 1 FROM public.cdm_log WHERE cdm_log.board = of_board FOR UPDATE;
    RETURN (SELECT coalesce(max(position), 0) FROM public.cdm_record WHERE board = of_board);
END $$;

-- Keeps events that are no records, up to 20,000 of a board. Returns how many were kept.
CREATE OR REPLACE FUNCTION public.cdm_note(of_board text, events jsonb)
    RETURNS integer LANGUAGE plpgsql VOLATILE SECURITY DEFINER SET search_path = pg_catalog, pg_temp AS $$
DECLARE
    room integer; count_kept integer;
BEGIN
    SELECT greatest(0, 20000 - count(*)) INTO room FROM public.cdm_audit WHERE board = of_board AND event <> 'records';
    INSERT INTO public.cdm_audit (board, at, event, desk, address, detail)
        SELECT of_board, value ->> 'at', value ->> 'event', value ->> 'desk', value ->> 'address', value ->> 'detail'
        FROM jsonb_array_elements(events) WITH ORDINALITY WHERE value ->> 'event' <> 'records' ORDER BY ordinality LIMIT room;
    GET DIAGNOSTICS count_kept = ROW_COUNT;
    RETURN count_kept;
END $$;

-- Keeps digests of the replies up to some records, where there are none yet: an array of [position, desk, role, line, at, digest]. Returns
-- those that are kept then. What is said of a record that isn't here is a digest of another past, and neither kept nor answered. Its commit
-- waits for no standby: a digest that is lost is made again.
CREATE OR REPLACE FUNCTION public.cdm_keep(of_board text, said jsonb)
    RETURNS jsonb LANGUAGE plpgsql VOLATILE SECURITY DEFINER SET search_path = pg_catalog, pg_temp AS $$
DECLARE
    kept jsonb;
BEGIN
    PERFORM set_config('synchronous_commit', 'local', true);
    INSERT INTO public.cdm_digest
        SELECT board, position, value ->> 5 FROM jsonb_array_elements(said) JOIN public.cdm_record ON position = (value ->> 0)::integer
            AND desk = value ->> 1 AND role = value ->> 2 AND line = value ->> 3 AND at = value ->> 4
        WHERE board = of_board ON CONFLICT DO NOTHING;
    SELECT coalesce(jsonb_object_agg(position, digest), '{}') INTO kept
        FROM public.cdm_digest JOIN public.cdm_record USING (board, position) JOIN jsonb_array_elements(said) ON position = (value ->> 0)::integer
            AND desk = value ->> 1 AND role = value ->> 2 AND line = value ->> 3 AND at = value ->> 4
        WHERE board = of_board;
    RETURN kept;
END $$;

-- Ends all sessions of a desk, at every server of the board, also those before a number. Returns the number of its next session.
DROP FUNCTION IF EXISTS public.cdm_sign_out(text, text);
CREATE OR REPLACE FUNCTION public.cdm_sign_out(of_board text, of_desk text, first_open integer)
    RETURNS integer LANGUAGE sql VOLATILE SECURITY DEFINER SET search_path = pg_catalog, pg_temp AS $$
    INSERT INTO public.cdm_session VALUES (of_board, of_desk, first_open)
        ON CONFLICT (board, desk) DO UPDATE SET not_before = greatest(cdm_session.not_before + 1, first_open) RETURNING not_before;
$$;

ALTER TABLE public.cdm_log OWNER TO cdm_owner;
ALTER TABLE public.cdm_record OWNER TO cdm_owner;
ALTER TABLE public.cdm_session OWNER TO cdm_owner;
ALTER TABLE public.cdm_audit OWNER TO cdm_owner;
ALTER TABLE public.cdm_digest OWNER TO cdm_owner;
ALTER TABLE public.cdm_day OWNER TO cdm_owner;
ALTER FUNCTION public.cdm_hold(text, text) OWNER TO cdm_owner;
ALTER FUNCTION public.cdm_append(text, jsonb, text, bytea, text) OWNER TO cdm_owner;
ALTER FUNCTION public.cdm_note(text, jsonb) OWNER TO cdm_owner;
ALTER FUNCTION public.cdm_keep(text, jsonb) OWNER TO cdm_owner;
ALTER FUNCTION public.cdm_sign_out(text, text, integer) OWNER TO cdm_owner;
REVOKE ALL ON public.cdm_log, public.cdm_record, public.cdm_session, public.cdm_audit, public.cdm_digest, public.cdm_day
    FROM PUBLIC, cdm_server, cdm_reader;
REVOKE ALL ON FUNCTION public.cdm_append(text, jsonb, text, bytea, text), public.cdm_note(text, jsonb), public.cdm_keep(text, jsonb),
    public.cdm_sign_out(text, text, integer), public.cdm_hold(text, text) FROM PUBLIC;
GRANT SELECT ON public.cdm_log, public.cdm_record, public.cdm_session, public.cdm_audit, public.cdm_digest, public.cdm_day TO cdm_server;
GRANT EXECUTE ON FUNCTION public.cdm_append(text, jsonb, text, bytea, text), public.cdm_note(text, jsonb), public.cdm_keep(text, jsonb),
    public.cdm_sign_out(text, text, integer), public.cdm_hold(text, text) TO cdm_server;
GRANT USAGE ON SCHEMA public TO cdm_server;
-- Whoever only reads gets neither the secrets nor a function.
GRANT SELECT (board, id, airport, version) ON public.cdm_log TO cdm_reader;
GRANT SELECT ON public.cdm_record, public.cdm_audit, public.cdm_digest, public.cdm_day TO cdm_reader;
GRANT USAGE ON SCHEMA public TO cdm_reader;
-- Nobody else has anything to do in this database.
DO $$ BEGIN
    EXECUTE format('REVOKE CONNECT ON DATABASE %I FROM PUBLIC', current_database());
    EXECUTE format('GRANT CONNECT ON DATABASE %I TO cdm_server, cdm_reader', current_database());
    REVOKE CREATE ON SCHEMA public FROM cdm_owner;
    IF current_setting('cdmboard.was_member', true) = 'no' THEN
        EXECUTE format('REVOKE cdm_owner FROM %I', current_user);
    END IF;
END $$;
