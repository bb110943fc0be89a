// The commands of `fsrm` again, without proofs, in safe Rust of the standard library alone, and written to be fast.
// `bench/lines` and `bench/scans` measure `fsrm` beside it.
//
// The script is read in blocks, and words are lent from its lines. Nodes stand in a list by their numbers, their names
// in one list, and a hash table finds a node by its folder and its folded name. Quotas stand in their folders; each
// change of a file climbs to the root and keeps what they have used. A quota keeps the bounds between which that
// crosses no threshold. Screens stand in their folders, too; a name finds the groups that it is in by its ending, so
// for most names no screen is looked at. So do auto-apply quotas; a template and the quotas that are derived from it
// share the texts of their actions. Children are listed by their folder, so that sums and scans visit them one after
// another. Replies are gathered, and written once for each block.
//
// Its replies are those of docs/FORMATS.md, but for letters that this compiler's Unicode doesn't have yet: it doesn't
// fold them. It takes no words, its exit status is 0 or 1, and a script may be of any length.
mod groups;
mod line;
mod machine;
mod names;
mod numbers;
mod options;
mod patterns;
mod places;
mod quotas;
mod replies;
mod room;
mod scans;
mod screens;
mod templates;
mod text;
mod thresholds;
mod volume;

use line::Refusal::{self, BadLine, Named};
use line::Words;
use machine::{Answer, Machine};
use std::io::{self, Read, Write};
use text::Line;

const LONGEST_LINE: usize = 65_536;
const BLOCK: usize = 65_536;

struct Session {
    machine: Machine,
    lines: u64,
    replies: Vec<u8>,
}

// The answer to a line, or none if it is skipped.
fn answer(machine: &mut Machine, line: &Line) -> Result<Option<Answer>, Refusal> {
    let bytes = line.bytes.strip_suffix(b"\r").unwrap_or(line.bytes);
    if bytes.len() > LONGEST_LINE {
        return Err(Named("LineTooLong"));
    }
    if !line.ascii {
        std::str::from_utf8(bytes).map_err(|fault| BadLine(fault.valid_up_to() + 1))?;
    }
    let first = bytes.iter().find(|byte| !text::is_blank(**byte));
    if first.is_none_or(|byte| *byte == b'#') {
        return Ok(None);
    }
    if line.quotes {
        let mut quotes = (0..bytes.len()).filter(|at| bytes[*at] == b'"');
        if quotes.clone().count() % 2 == 1 {
            return Err(BadLine(quotes.next_back().unwrap_or(0) + 1));
        }
    }
    let (moment, command) = Words::new(bytes, line.quotes).command()?;
    machine.take(moment, &command).map(Some)
}

impl Session {
    fn take(&mut self, line: &Line) {
        self.lines += 1;
        if let Some(reply) = answer(&mut self.machine, line).transpose() {
            replies::write_reply(&mut self.replies, self.lines, &reply, &self.machine);
            self.machine.quotas.runs.acts.clear();
        }
    }

    // Takes all lines that are ended, and tells how many bytes they have.
    fn take_lines(&mut self, lines: &[u8], output: &mut impl Write) -> io::Result<usize> {
        let mut taken = 0;
        while let Some(line) = text::first_line(&lines[taken..]) {
            self.take(&line);
            taken += line.bytes.len() + 1;
            if self.replies.len() >= BLOCK {
                self.write(output)?;
            }
        }
        Ok(taken)
    }

    fn write(&mut self, output: &mut impl Write) -> io::Result<()> {
        output.write_all(&self.replies)?;
        self.replies.clear();
        Ok(())
    }
}

fn main() -> io::Result<()> {
    let (mut input, mut output) = (io::stdin().lock(), io::stdout().lock());
    let mut session = Session { machine: Machine::new(), lines: 0, replies: Vec::new() };
    let mut block = vec![0; LONGEST_LINE + 2 + BLOCK];
    // so many bytes of a line that isn't ended stand in front
    let mut held = 0;
    loop {
        let read = input.read(&mut block[held..held + BLOCK])?;
        let lines = &block[..held + read];
        if read == 0 {
            if held > 0 {
                session.take(&text::last_line(lines));
            }
            return session.write(&mut output);
        }
        let taken = session.take_lines(lines, &mut output)?;
        session.write(&mut output)?;
        // no more than this of a line that is too long
        held = (lines.len() - taken).min(LONGEST_LINE + 2);
        block.copy_within(taken..taken + held, 0);
    }
}
