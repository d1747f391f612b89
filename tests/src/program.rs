//! The program crates/siting_cli/out/siting_cli, which rt ci and scripts/run build.

use std::path::{Path, PathBuf};
use std::process::{Child, Command, Stdio};

pub fn path() -> PathBuf {
    let path = Path::new(env!("CARGO_MANIFEST_DIR")).join("../crates/siting_cli/out/siting_cli");
    assert!(path.is_file(), "{} is missing: scripts/run builds it", path.display());
    path
}

/// A command whose standard error is kept.
pub fn command() -> Command {
    silent(Command::new(path()))
}

/// The same by way of the shell, with a redirection.
pub fn redirected(redirection: &str) -> Command {
    let mut shell = Command::new("sh");
    shell.arg("-c").arg(format!("exec \"$0\" {redirection}")).arg(path());
    silent(shell)
}

fn silent(mut command: Command) -> Command {
    command.stdin(Stdio::null()).stdout(Stdio::piped()).stderr(Stdio::piped());
    command
}

/// What a program that has its input printed. It exits with 0 and writes nothing to standard error.
pub fn printed(child: Child) -> String {
    let output = child.wait_with_output().unwrap();
    assert_eq!(String::from_utf8_lossy(&output.stderr), "");
    assert_eq!(output.status.code(), Some(0), "{}", output.status);
    String::from_utf8(output.stdout).unwrap()
}
