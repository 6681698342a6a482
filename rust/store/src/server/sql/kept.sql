-- Nobody is granted to change a table. These keep its owner from doing so by mistake.
CREATE FUNCTION cindrolf.is_kept() RETURNS trigger LANGUAGE plpgsql AS $$
BEGIN
    RAISE EXCEPTION 'the table % of run logs is not changed or shortened', TG_TABLE_NAME USING ERRCODE = '55000';
END $$;

CREATE TRIGGER is_kept BEFORE UPDATE OR DELETE OR TRUNCATE ON cindrolf.logs EXECUTE FUNCTION cindrolf.is_kept();
CREATE TRIGGER is_kept BEFORE UPDATE OR DELETE OR TRUNCATE ON cindrolf.rows EXECUTE FUNCTION cindrolf.is_kept();
CREATE TRIGGER is_kept BEFORE UPDATE OR DELETE OR TRUNCATE ON cindrolf.starts EXECUTE FUNCTION cindrolf.is_kept();
CREATE TRIGGER is_kept BEFORE UPDATE OR DELETE OR TRUNCATE ON cindrolf.answers EXECUTE FUNCTION cindrolf.is_kept();
CREATE TRIGGER is_kept BEFORE UPDATE OR DELETE OR TRUNCATE ON cindrolf.admissions EXECUTE FUNCTION cindrolf.is_kept();
