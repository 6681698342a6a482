//! Tests a log on a server with killed controllers, killed servers and a hostile network.

pub mod auditing;
pub mod cluster;
pub mod controllers;
pub mod fault;
pub mod laboratory;
pub mod measured;
pub mod plain;
pub mod port;
pub mod processes;
pub mod programs;
pub mod proxy;
pub mod rows;
pub mod run;
pub mod site;
pub mod sql_rows;
