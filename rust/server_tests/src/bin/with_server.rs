//! Starts a server with the schema of run logs, and runs a command with it: with_server COMMAND..
//!
//! CINDROLF_TEST_CONTROLLERS names the database for two controllers, through a network that the command breaks by a
//! line on its standard output: `silence` stops all answers of the server, and `heal` lets them pass again. The reply
//! to each line is `done`. Without PostgreSQL the status is 77.

use cindrolf_server_tests::cluster::address;
use cindrolf_server_tests::controllers::{laboratory, role};
use cindrolf_server_tests::proxy::{Proxy, Then, Way};
use std::io::{BufRead, BufReader, Write};
use std::process::{Command, ExitCode, Stdio};

/// The status of a test that is skipped.
const SKIPPED: u8 = 77;

/// So few bytes pass that no answer is among them.
const FEW: u64 = 5;

fn main() -> ExitCode {
    let words: Vec<String> = std::env::args().skip(1).collect();
    let [program, arguments @ ..] = &words[..] else {
        eprintln!("usage: with_server COMMAND..");
        return ExitCode::from(2);
    };
    let Some(cluster) = laboratory("a command beside a server", "") else { return ExitCode::from(SKIPPED) };
    let network = Proxy::to(cluster.port());
    let places: Vec<String> = (0..2).map(|client| address(&role(client), &[network.port()])).collect();
    let mut command = Command::new(program);
    command.args(arguments).env("CINDROLF_TEST_CONTROLLERS", places.join(" "));
    match run(command, &network) {
        Ok(true) => ExitCode::SUCCESS,
        Ok(false) => ExitCode::FAILURE,
        Err(error) => {
            eprintln!("with_server: {program}: {error}");
            ExitCode::FAILURE
        }
    }
}

/// Runs a command, does what it says, and gives whether it ended well.
fn run(mut command: Command, network: &Proxy) -> std::io::Result<bool> {
    let mut child = command.stdin(Stdio::piped()).stdout(Stdio::piped()).spawn()?;
    let (mut input, output) = child.stdin.take().zip(child.stdout.take()).expect("both are pipes");
    for line in BufReader::new(output).lines() {
        match line?.as_str() {
            "silence" => network.limit(Way::ToClient, FEW, Then::Silence),
            "heal" => {
                network.cut();
                network.heal();
            }
            other => {
                println!("{other}");
                continue;
            }
        }
        writeln!(input, "done")?;
    }
    Ok(child.wait()?.success())
}
