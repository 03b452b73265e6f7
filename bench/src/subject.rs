//! What is compared with the model: the built programs, or a version of the model itself.

use crate::rules::Rules;
use std::io::{Read, Write};
use std::process::{Child, Command, ExitStatus, Stdio};
use std::sync::mpsc::channel;
use std::thread;
use std::time::Duration;

/// The programs that read bytes and print text: the program, the probe, those that make the exported run and the calls
/// on an image, and the examples that keep a register, in C and in Rust.
#[derive(Clone, Copy, PartialEq, Eq, Debug)]
pub enum Target {
    Program,
    Probe,
    Exported,
    Live,
    Kept,
    Shared,
}

impl Target {
    pub const ALL: [Target; 6] =
        [Target::Program, Target::Probe, Target::Exported, Target::Live, Target::Kept, Target::Shared];

    /// Those by which wrong versions are found: the examples print what the program prints.
    pub const FINDING: [Target; 4] = [Target::Program, Target::Probe, Target::Exported, Target::Live];

    /// The name in reports.
    pub fn name(self) -> &'static str {
        match self {
            Target::Program => "program",
            Target::Probe => "probe",
            Target::Exported => "exported",
            Target::Live => "live",
            Target::Kept => "kept",
            Target::Shared => "shared",
        }
    }

    /// The model's output on an input.
    pub fn text(self, input: &[u8], rules: &impl Rules) -> String {
        match self {
            Target::Program => rules.program_text(input),
            Target::Probe => rules.probe_text(input),
            Target::Exported => rules.exported_text(input),
            Target::Live => rules.live_text(input),
            Target::Kept | Target::Shared => rules.kept_text(input),
        }
    }
}

/// Something that answers as the programs do, or as some of them.
pub trait Subject {
    /// Whether it has this program.
    fn has(&self, target: Target) -> bool;

    /// The bytes that it prints on an input, or how it failed.
    fn answer(&self, target: Target, input: &[u8]) -> Result<Vec<u8>, String>;

    /// The bytes that it prints where its input cannot be read; none where that cannot be tried.
    fn answer_unread(&self, _: Target) -> Option<Result<Vec<u8>, String>> {
        None
    }
}

/// A version of the model, in this process.
pub struct Version<R>(pub R);

impl<R: Rules> Subject for Version<R> {
    fn has(&self, _: Target) -> bool {
        true
    }

    fn answer(&self, target: Target, input: &[u8]) -> Result<Vec<u8>, String> {
        Ok(target.text(input, &self.0).into_bytes())
    }
}

/// Built programs, each the words of its command.
#[derive(Default)]
pub struct Built {
    pub program: Vec<String>,
    pub probe: Vec<String>,
    pub exported: Vec<String>,
    pub live: Vec<String>,
    pub kept: Vec<String>,
    pub shared: Vec<String>,
}

/// How long a built program may take for one stream.
const PATIENCE: Duration = Duration::from_secs(10);

impl Subject for Built {
    fn has(&self, target: Target) -> bool {
        !self.words(target).is_empty()
    }

    fn answer(&self, target: Target, input: &[u8]) -> Result<Vec<u8>, String> {
        let mut child = self.start(target, Stdio::piped())?;
        judge(talk(&mut child, input)?)
    }

    fn answer_unread(&self, target: Target) -> Option<Result<Vec<u8>, String>> {
        if matches!(target, Target::Exported | Target::Live) {
            return None;
        }
        // A folder can be opened, and every read of it fails.
        let folder = std::fs::File::open("/").ok()?;
        let child = self.start(target, Stdio::from(folder));
        Some(child.and_then(|mut child| judge(talk(&mut child, &[])?)))
    }
}

impl Built {
    /// How a program that is given cannot be started, if so.
    pub fn obstacle(&self) -> Option<String> {
        let given = Target::ALL.into_iter().filter(|target| self.has(*target));
        given.map(|target| self.start(target, Stdio::null())).find_map(|started| match started {
            Ok(mut child) => {
                let _ = child.kill();
                finish(&mut child).err()
            }
            Err(obstacle) => Some(obstacle),
        })
    }

    /// Starts a program.
    fn start(&self, target: Target, stdin: Stdio) -> Result<Child, String> {
        let words = self.words(target);
        let mut command = Command::new(&words[0]);
        command.args(&words[1..]).stdin(stdin).stdout(Stdio::piped()).stderr(Stdio::piped());
        command.spawn().map_err(|error| format!("cannot start {}: {error}", words[0]))
    }

    /// The words of a program's command.
    fn words(&self, target: Target) -> &[String] {
        match target {
            Target::Program => &self.program,
            Target::Probe => &self.probe,
            Target::Exported => &self.exported,
            Target::Live => &self.live,
            Target::Kept => &self.kept,
            Target::Shared => &self.shared,
        }
    }
}

/// What a program left: standard output, standard error, status.
type Left = (Vec<u8>, Vec<u8>, ExitStatus);

/// The output of a program that ended well and complained of nothing.
fn judge((output, complaint, status): Left) -> Result<Vec<u8>, String> {
    match (complaint.is_empty(), status.success()) {
        (true, true) => Ok(output),
        (false, _) => Err(format!("standard error: {}", String::from_utf8_lossy(&complaint))),
        (true, false) => Err(format!("ended with {status} after {} bytes", output.len())),
    }
}

/// Feeds the input and collects both outputs; a child that takes too long is ended.
fn talk(child: &mut Child, input: &[u8]) -> Result<Left, String> {
    let (stdin, stdout, stderr) = (child.stdin.take(), child.stdout.take(), child.stderr.take());
    let (sender, receiver) = channel();
    let outputs = thread::scope(|scope| {
        scope.spawn(move || stdin.map(|stdin| feed(stdin, input)));
        let complaint = scope.spawn(move || stderr.map(collect).unwrap_or_default());
        scope.spawn(move || sender.send(stdout.map(collect).unwrap_or_default()));
        let output = receiver.recv_timeout(PATIENCE).map_err(|_| {
            let _ = child.kill();
            format!("no end after {} seconds", PATIENCE.as_secs())
        });
        (output, complaint.join().unwrap_or_default())
    });
    let status = finish(child)?;
    Ok((outputs.0?, outputs.1, status))
}

/// Waits for the end of a program.
fn finish(child: &mut Child) -> Result<ExitStatus, String> {
    child.wait().map_err(|error| error.to_string())
}

/// Writes the input, in pieces of a size that goes with its length; an early end of the reader is no error.
fn feed(mut stdin: impl Write, input: &[u8]) {
    let piece = match input.len() % 4 {
        0 => 1 + input.len() / 50,
        1 => 4_096,
        _ => input.len().max(1),
    };
    for piece in input.chunks(piece) {
        if stdin.write_all(piece).is_err() {
            return;
        }
    }
}

/// Everything that a stream holds.
fn collect(mut stream: impl Read) -> Vec<u8> {
    let mut bytes = Vec::new();
    let _ = stream.read_to_end(&mut bytes);
    bytes
}
