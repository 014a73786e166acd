//! The exports of archives that another program has linked, as of those for another processor under an emulator. It is tests/c/serve.c, which is sent
//! commands through a pipe, and finds what it is lent in a file that both have mapped.
use crate::guarded::{Guarded, Place, ROOM};
use crate::lender::{Export, Exports, Lender, BUFFERS};
use crate::mapping::Mapping;
use crate::processor;
use calls::NUMBERS;
use std::fs::{self, File};
use std::io::{self, BufRead, BufReader, Read, Write};
use std::panic::resume_unwind;
use std::path::Path;
use std::process::{self, Child, ChildStdin, ChildStdout, Command, Stdio};

/// The archives of a server, lent what they need.
pub type Emulated = Lender<Server>;

impl Emulated {
    /// Starts a server by the words of a command, which ends when this is dropped. The file is in the folder for temporary files. The two take turns, on
    /// one processor: to wake up another one takes longer than most calls.
    pub fn start(command: &str) -> Result<Emulated, String> {
        processor::stay();
        let path = std::env::temp_dir().join(format!("serve-{}", process::id()));
        let mapping = new_file(&path).map_err(|error| format!("{}: {error}", path.display()))?;
        let server = Server::start(command, &path);
        // Both have it mapped, or there is no server.
        let _ = fs::remove_file(&path);
        Ok(Lender::new(server?, Guarded::new(mapping)))
    }
}

fn new_file(path: &Path) -> io::Result<Mapping> {
    let file = File::options().read(true).write(true).create_new(true).open(path)?;
    file.set_len(ROOM as u64)?;
    // SAFETY: the server writes only between a command and its answer.
    unsafe { Mapping::shared(&file, ROOM) }
}

/// A running server.
pub struct Server {
    process: Child,
    commands: ChildStdin,
    answers: BufReader<ChildStdout>,
}

impl Server {
    fn start(command: &str, file: &Path) -> Result<Server, String> {
        let mut words = command.split_whitespace();
        let mut started = Command::new(words.next().ok_or("no command")?);
        started.args(words).arg(file).stdin(Stdio::piped()).stdout(Stdio::piped());
        let mut process = started.spawn().map_err(|error| format!("{command} cannot be started: {error}"))?;
        let (Some(commands), Some(answers)) = (process.stdin.take(), process.stdout.take()) else {
            return Err(format!("{command} has no pipes"));
        };
        let mut server = Server { process, commands, answers: BufReader::new(answers) };
        server.read_names().map_err(|what| format!("{command}: {what}"))?;
        Ok(server)
    }

    /// Reads which exports the server has: their positions are the numbers by which commands name them.
    fn read_names(&mut self) -> Result<(), String> {
        for expected in Export::all().map(Export::name).chain([""]) {
            let mut name = String::new();
            match self.answers.read_line(&mut name) {
                Ok(0) | Err(_) => return Err(self.end()),
                Ok(_) if name.trim_end() != expected => {
                    return Err(format!("{:?} in the place of {expected:?}", name.trim_end()))
                }
                Ok(_) => {}
            }
        }
        Ok(())
    }

    /// How the server ended.
    fn end(&mut self) -> String {
        let status = self.process.wait().map_or_else(|error| error.to_string(), |status| status.to_string());
        format!("the server has ended, {status}")
    }
}

impl Exports for Server {
    /// A command is the export's position and the numbers, each of 32 bits, and the start and the length of each place, each of 64 bits.
    fn answer(&mut self, _: &Guarded, export: Export, numbers: [u32; NUMBERS], lent: [Place; BUFFERS]) -> u64 {
        let words = [export.position() as u32].into_iter().chain(numbers).flat_map(u32::to_le_bytes);
        let places = lent.into_iter().flat_map(|place| [place.start as u64, place.length as u64]);
        let command: Vec<u8> = words.chain(places.flat_map(u64::to_le_bytes)).collect();
        let mut answer = [0; 8];
        match self.commands.write_all(&command).and_then(|()| self.answers.read_exact(&mut answer)) {
            Ok(()) => u64::from_le_bytes(answer),
            Err(_) => resume_unwind(Box::new(self.end())),
        }
    }
}
