//! A desk for programs in Rust: this file starts the program desk, gives it lines and reads its answers. `docs/SCRIPT.md` has
//! the lines and what is answered. Nothing beyond the standard library is needed.
//!
//! ```no_run
//! let mut desk = desk_client::Desk::open("desk", None)?;
//! desk.ask("desk 8 8 0")?;
//! assert_eq!(desk.ask("find 4 4")?, "ok 0 0");
//! println!("{} columns", desk.image()?.width);
//! # Ok::<(), desk_client::Fault>(())
//! ```

use std::ffi::{OsStr, OsString};
use std::fmt;
use std::io::{self, BufRead, BufReader, Read, Write};
use std::path::Path;
use std::process::{Child, ChildStdin, ChildStdout, Command, ExitStatus, Stdio};

/// How many pixels of an image stand in a line.
const PIXELS_OF_A_LINE: usize = 70;
/// The largest side of an image.
const LARGEST_SIDE: usize = 32767;

/// Why there is no answer, or no desk.
#[derive(Debug)]
pub enum Fault {
    /// The line is refused, for the reason of this number and name. The desk is as it was before.
    Refused {
        number: u8,
        name: String,
    },
    /// The line was not given to the desk: it would not be answered, or is more than one.
    BadLine,
    /// The program cannot be started, or cannot be written to or read from any more.
    System(io::Error),
    /// The program has ended, or what came is no answer of a desk. The desk cannot be asked any more.
    Ended,
    Strange,
}

impl fmt::Display for Fault {
    fn fmt(&self, out: &mut fmt::Formatter<'_>) -> fmt::Result {
        match self {
            Fault::Refused { number, name } => write!(out, "refused {number} {name}"),
            Fault::BadLine => write!(out, "the line would not be answered, or is more than one"),
            Fault::System(fault) => write!(out, "the program desk: {fault}"),
            Fault::Ended => write!(out, "the program desk has ended"),
            Fault::Strange => write!(out, "what came is no answer of a desk"),
        }
    }
}

impl std::error::Error for Fault {}

impl From<io::Error> for Fault {
    fn from(fault: io::Error) -> Self {
        match fault.kind() {
            io::ErrorKind::BrokenPipe => Fault::Ended,
            _ => Fault::System(fault),
        }
    }
}

/// A screen.
#[derive(Clone, Debug, PartialEq, Eq)]
pub struct Image {
    pub width: usize,
    pub height: usize,
    /// Row by row from the top; true is black.
    pub pixels: Vec<bool>,
}

impl Image {
    /// Whether the pixel in this column and row is black.
    pub fn is_black(&self, h: usize, v: usize) -> bool {
        assert!(h < self.width && v < self.height, "the image has no pixel {h} {v}");
        self.pixels[v * self.width + h]
    }
}

/// Both pipes of a program, from here.
#[derive(Debug)]
struct Pipes {
    input: ChildStdin,
    output: BufReader<ChildStdout>,
}

/// A desk: a run of the program. It ends where this is closed or dropped.
#[derive(Debug)]
pub struct Desk {
    program: Child,
    /// Its standard input and output. None where the desk is closed.
    pipes: Option<Pipes>,
    /// The program has ended or gave no answer, so that nothing more is asked.
    is_broken: bool,
}

impl Desk {
    /// Starts the program of this path, or of this name on the PATH, with the font in this file or with the built-in one.
    /// Where the font is none the program ends by itself, with status 1. What it writes on standard error goes to the
    /// caller's.
    pub fn open(program: impl AsRef<OsStr>, font: Option<&Path>) -> Result<Desk, Fault> {
        let mut command = Command::new(program);
        if let Some(path) = font {
            let mut word = OsString::from("--font=");
            word.push(path);
            command.arg(word);
        }
        let mut program = command.stdin(Stdio::piped()).stdout(Stdio::piped()).spawn()?;
        let input = program.stdin.take().expect("the pipe that was just made");
        let output = program.stdout.take().expect("the pipe that was just made");
        let output = BufReader::with_capacity(65536, output);
        Ok(Desk { program, pipes: Some(Pipes { input, output }), is_broken: false })
    }

    /// Gives a line, without its newline, and waits for its answer, a text without its last newline: `ok`, `ok 3 1` or an
    /// image. A line that is empty, a comment, or has a newline in it is BadLine.
    pub fn ask(&mut self, line: &str) -> Result<String, Fault> {
        if line.is_empty() || line == "\r" || line.starts_with('#') || line.contains('\n') {
            return Err(Fault::BadLine);
        }
        if self.is_broken {
            return Err(Fault::Ended);
        }
        let answer = self.pipes.as_mut().ok_or(Fault::Ended)?.answer_to(line);
        self.is_broken = answer.is_err();
        let answer = answer?;
        match answer.strip_prefix("refused ") {
            None => Ok(answer),
            Some(reason) => Err(refused(reason).unwrap_or_else(|| self.strange())),
        }
    }

    /// The screen.
    pub fn image(&mut self) -> Result<Image, Fault> {
        let answer = self.ask("image")?;
        image_of(&answer).ok_or_else(|| self.strange())
    }

    /// Ends the program, and gives its status.
    pub fn close(mut self) -> Result<ExitStatus, Fault> {
        self.pipes = None;
        Ok(self.program.wait()?)
    }

    /// What came is no answer, so nothing more is asked.
    fn strange(&mut self) -> Fault {
        self.is_broken = true;
        Fault::Strange
    }
}

impl Drop for Desk {
    fn drop(&mut self) {
        self.pipes = None;
        let _ = self.program.wait();
    }
}

impl Pipes {
    /// The answer to a line, whatever it is.
    fn answer_to(&mut self, line: &str) -> Result<String, Fault> {
        let mut whole = Vec::with_capacity(line.len() + 1);
        whole.extend_from_slice(line.as_bytes());
        whole.push(b'\n');
        self.input.write_all(&whole)?;
        let mut answer = Vec::new();
        self.read_line(&mut answer)?;
        if answer == b"P1\n" {
            self.read_image(&mut answer)?;
        }
        match answer.pop() {
            Some(b'\n') => String::from_utf8(answer).map_err(|_| Fault::Strange),
            _ => Err(Fault::Strange),
        }
    }

    /// Reads a line with its newline, and puts it behind what was read of the answer.
    fn read_line(&mut self, answer: &mut Vec<u8>) -> Result<(), Fault> {
        let count = self.output.read_until(b'\n', answer)?;
        match answer.last() {
            Some(b'\n') if count > 0 => Ok(()),
            _ => Err(Fault::Ended),
        }
    }

    /// Reads what follows the first line of an image.
    fn read_image(&mut self, answer: &mut Vec<u8>) -> Result<(), Fault> {
        let begin = answer.len();
        self.read_line(answer)?;
        let sides = std::str::from_utf8(&answer[begin..answer.len() - 1]);
        let (width, height) = sides.ok().and_then(sides_of).ok_or(Fault::Strange)?;
        let count = height * (width + width.div_ceil(PIXELS_OF_A_LINE));
        let found = (&mut self.output).take(count as u64).read_to_end(answer)?;
        if found == count {
            Ok(())
        } else {
            Err(Fault::Ended)
        }
    }
}

/// The columns and rows that the second line of an image names.
fn sides_of(line: &str) -> Option<(usize, usize)> {
    let (width, height) = line.split_once(' ')?;
    let side = |word: &str| word.parse().ok().filter(|it| (1..=LARGEST_SIDE).contains(it));
    Some((side(width)?, side(height)?))
}

/// The image that an answer is.
fn image_of(answer: &str) -> Option<Image> {
    let (sides, digits) = answer.strip_prefix("P1\n")?.split_once('\n')?;
    let (width, height) = sides_of(sides)?;
    let mut pixels = Vec::with_capacity(width * height);
    for digit in digits.bytes().filter(|it| *it != b'\n') {
        pixels.push(match digit {
            b'0' => false,
            b'1' => true,
            _ => return None,
        });
    }
    (pixels.len() == width * height).then_some(Image { width, height, pixels })
}

/// The refusal of this number and name.
fn refused(reason: &str) -> Option<Fault> {
    let (number, name) = reason.split_once(' ')?;
    Some(Fault::Refused { number: number.parse().ok()?, name: name.to_string() })
}
