//! A server with the schema of run logs, on which controllers use the store.

use crate::cluster::{Cluster, cluster_for};

/// How many controllers there are: `controller_0` steps for client 0, and so on, and may name itself.
pub const CONTROLLERS: u64 = 16;

/// The role that answers for rows.
pub const AUDITOR: &str = "auditor";

/// A server for this test, on which controllers may make logs and step. None where no server can be had.
pub fn laboratory(test: &str, settings: &str) -> Option<Cluster> {
    let cluster = cluster_for(test, settings)?;
    furnish(&cluster, &store::schema());
    Some(cluster)
}

/// Gives a server this schema, and roles: the controllers'; `administrator` changes rights and members, `auditor` answers,
/// `analyst` reads.
pub fn furnish(cluster: &Cluster, schema: &str) {
    cluster.sql(schema).expect("the schema");
    let mut roles = String::from(
        "CREATE ROLE administrator LOGIN; GRANT cindrolf_admin TO administrator; SELECT cindrolf.admit('administrator', -1);\n\
         CREATE ROLE auditor LOGIN; GRANT cindrolf_auditor TO auditor; SELECT cindrolf.admit('auditor', -3);\n\
         CREATE ROLE analyst LOGIN; GRANT cindrolf_reader TO analyst;\n",
    );
    for number in 0..CONTROLLERS {
        let role = role(number);
        roles += &format!(
            "CREATE ROLE {role} LOGIN; GRANT cindrolf_controller TO {role}; \
             SELECT cindrolf.admit('{role}', {number}, true);\n"
        );
    }
    cluster.sql(&roles).expect("the roles");
}

/// The role of the controller of a client.
pub fn role(client: u64) -> String {
    format!("controller_{client}")
}

/// The address of a log, for the controller of a client.
pub fn address_of(cluster: &Cluster, client: u64, log: &str) -> String {
    cluster.address(&role(client), log)
}
