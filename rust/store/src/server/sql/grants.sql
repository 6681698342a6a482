-- Who may do what. Nobody may insert, update, delete, truncate or lock: functions do so, for those whom they allow it.
REVOKE ALL ON ALL FUNCTIONS IN SCHEMA cindrolf FROM PUBLIC;
REVOKE ALL ON ALL TABLES IN SCHEMA cindrolf FROM PUBLIC;
REVOKE ALL ON SCHEMA cindrolf FROM PUBLIC;

GRANT USAGE ON SCHEMA cindrolf TO cindrolf_controller, cindrolf_reader, cindrolf_auditor, cindrolf_admin;
GRANT SELECT ON ALL TABLES IN SCHEMA cindrolf TO cindrolf_controller, cindrolf_reader, cindrolf_auditor, cindrolf_admin;
GRANT EXECUTE ON FUNCTION cindrolf.version, cindrolf.number_of, cindrolf.time_of, cindrolf.mark_name
TO cindrolf_controller, cindrolf_reader, cindrolf_auditor, cindrolf_admin;
GRANT EXECUTE ON FUNCTION
    cindrolf.create_log, cindrolf.start, cindrolf.append, cindrolf.append_write, cindrolf.settle
TO cindrolf_controller, cindrolf_admin;
GRANT EXECUTE ON FUNCTION cindrolf.answer TO cindrolf_auditor;
GRANT EXECUTE ON FUNCTION cindrolf.import, cindrolf.admit, cindrolf.dismiss TO cindrolf_admin;
