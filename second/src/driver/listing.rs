//! The `frames` program: run on whole streams, its text is held to the model's, letter by letter.

use super::captures::Capture;
use super::worked::bytes;
use super::{streams, Plan};
use crate::classic::listing;
use crate::comparison::hex;
use crate::rng::Rng;
use std::io::Write;
use std::path::Path;
use std::process::{Command, Stdio};

/// The paper's own stream and its listing.
const STREAM: &str = "00 F0 02 00 05 F2 02 00 F2 00 F1 F0 02 F0 02 00 06 00 02 F1";
const LISTING: &str = "\
frame 10 5 1
refused 20 at 13
frame 19 6 0
skipped 1
end 20 outside
";

/// What the program prints for a stream on its standard input.
pub fn printed(program: &Path, stream: &[u8]) -> Result<Vec<u8>, String> {
    let failed = |error: std::io::Error| format!("{}: {error}", program.display());
    let mut child = Command::new(program)
        .stdin(Stdio::piped())
        .stdout(Stdio::piped())
        .stderr(Stdio::null())
        .spawn()
        .map_err(failed)?;
    let mut input = child.stdin.take().expect("a pipe");
    // Fed from beside, so that neither side waits for the other.
    let output = std::thread::scope(|scope| {
        scope.spawn(move || input.write_all(stream));
        child.wait_with_output()
    });
    let output = output.map_err(failed)?;
    if output.status.success() {
        Ok(output.stdout)
    } else {
        Err(format!("{}: {}", program.display(), output.status))
    }
}

fn compare(program: &Path, stream: &[u8], expected: &str) -> Result<(), String> {
    let printed = printed(program, stream)?;
    if printed == expected.as_bytes() {
        return Ok(());
    }
    let printed = String::from_utf8_lossy(&printed);
    Err(format!(
        "difference: frames\n  stream, {} bytes: {}\n  second prints\n{expected}  {} prints\n{printed}",
        stream.len(),
        hex(stream),
        program.display(),
    ))
}

/// Runs the program on the paper's stream, the captures, and generated streams, some of them long;
/// gives how many.
pub fn run(program: &Path, captures: &[Capture], plan: Plan) -> Result<usize, String> {
    compare(program, &bytes(STREAM), LISTING)?;
    let mut rng = Rng::new(plan.seed ^ 0x6672_616D_6573);
    let generated = (0..plan.times(100)).map(|number| {
        let size = match number % 25 {
            0 => 0,
            1 => 4_096,
            2 => 8_192,
            3 => 65_536,
            4 => 150_000,
            _ => rng.index(300),
        };
        let mut stream = Vec::new();
        while stream.len() < size {
            stream.extend(streams::stream(&mut rng));
        }
        stream.truncate(size);
        stream
    });
    let whole = captures.iter().map(|capture| capture.chunks.concat());
    let mut count = 1;
    for stream in whole.chain(generated) {
        compare(program, &stream, &listing(&stream))?;
        count += 1;
    }
    Ok(count)
}
