//! The most memory that a program takes to read a stream.

use std::fs::{self, File};
use std::io;
use std::process::{Command, Stdio};
use std::thread::sleep;
use std::time::Duration;

/// Gives a program the stream through a pipe and, when it has read all and waits for more, reads
/// off the most memory that it has had in kB. None where that is not told: of a program that has
/// ended by then, or on another system than Linux.
pub fn peak(command: &mut Command, mut stream: File) -> io::Result<Option<u64>> {
    let mut child = command.stdin(Stdio::piped()).spawn()?;
    let mut stdin = child.stdin.take();
    // A program that ends without reading all breaks the pipe; it has no peak to tell.
    let fed = stdin.as_mut().is_some_and(|stdin| io::copy(&mut stream, stdin).is_ok());
    let peak = if fed { peak_when_waiting(child.id()) } else { None };
    drop(stdin);
    child.wait()?;
    Ok(peak)
}

/// Asked again while the program still works on what is in the pipe.
fn peak_when_waiting(process: u32) -> Option<u64> {
    loop {
        let status = fs::read_to_string(format!("/proc/{process}/status")).ok()?;
        match field(&status, "State:")? {
            "S" => return field(&status, "VmHWM:")?.parse().ok(),
            "Z" => return None,
            _ => sleep(Duration::from_millis(1)),
        }
    }
}

/// The first word after a name.
fn field<'a>(status: &'a str, name: &str) -> Option<&'a str> {
    let line = status.lines().find_map(|line| line.strip_prefix(name))?;
    line.split_whitespace().next()
}

#[cfg(test)]
mod tests {
    use super::{field, peak};
    use std::fs::File;
    use std::process::{Command, Stdio};

    #[test]
    fn a_field_is_the_word_after_its_name() {
        let status = "Name:\tcat\nState:\tS (sleeping)\nVmHWM:\t    1820 kB\n";
        assert_eq!(field(status, "State:"), Some("S"));
        assert_eq!(field(status, "VmHWM:"), Some("1820"));
        assert_eq!(field(status, "VmPeak:"), None);
    }

    #[test]
    #[cfg(target_os = "linux")]
    fn a_program_that_waits_for_more_has_a_peak() {
        let stream = File::open("/dev/null").expect("an empty stream");
        let peak = peak(Command::new("cat").stdout(Stdio::null()), stream);
        assert!(peak.expect("it starts").is_some_and(|peak| peak > 0));
    }
}
