//! The library in a process of its own, for a twin on a processor that cannot
//! link it. The program `server` beside this one (tests/twin/server.c, which
//! says what goes over the pipes) makes the calls; it is started by the first.

use crate::check::Finding;
use crate::compare::words_of;
use crate::crossing::CrossingReply;
use crate::least::LeastReply;
use crate::table::Refusal;
use crate::turns::TurnReply;
use crate::twin::{Call, Pair, Reply, Said};
use crate::values::Values;
use crate::working::{Ask, RowReply, Told, WorkReply, ASK_NAMES};
use crate::working_compare::GUARD_WORDS;
use std::io::{BufReader, BufWriter, Error, Read, Result, Write};
use std::ops::Range;
use std::process::{ChildStdin, ChildStdout, Command, Stdio};
use std::sync::{LazyLock, Mutex};

struct Server {
    requests: BufWriter<ChildStdin>,
    answers: BufReader<ChildStdout>,
}

static SERVER: LazyLock<Mutex<Server>> = LazyLock::new(|| match Server::start() {
    Ok(server) => Mutex::new(server),
    Err(error) => give_up("does not start", &error),
});

/// What the server answers; where it answers nothing, this was lost.
fn answered<T>(what: String, ask: impl FnOnce(&mut Server) -> Result<T>) -> T {
    let mut server = SERVER.lock().expect("the twin has one thread");
    match ask(&mut server) {
        Ok(answer) => answer,
        Err(error) => give_up(&format!("was lost in {what}"), &error),
    }
}

/// One call, of which text and area come back as the library left them.
pub fn library(call: Call, text: &mut [u8], area: &mut [u8], lent: Range<usize>) -> Said {
    answered(format!("the call {call:?}"), |server| {
        server.ask(call, text, area, lent)
    })
}

/// One call of the working table, of which words and area come back as the
/// library left them.
pub fn library_work(ask: &Ask, words: &mut [u32], area: &mut [u8], lent: Range<usize>) -> Told {
    answered(format!("the call {ask:?}"), |server| {
        server.ask_work(ask, words, area, lent)
    })
}

/// Circuits sent one turn at a time; text and area come back as the library left them.
pub fn library_turn(text: &mut [u8], area: &mut [u8], lent: Range<usize>) -> TurnReply {
    let said = answered("turning circuits".to_owned(), |server| {
        server.made("Turn", [0; 4], (text, 0), area, lent)
    });
    TurnReply::of(said.map(|number| number as u32))
}

/// Whether the circuits of a table all cross each other; the text comes back as the library
/// left it.
pub fn library_crossing(text: &mut [u8]) -> CrossingReply {
    let said = answered("asking whether circuits cross".to_owned(), |server| {
        server.made("Crossing", [0; 4], (text, 0), &mut [], 0..0)
    });
    CrossingReply::of(said.map(|number| number as u32))
}

/// The least of five rules; the same of text and area.
pub fn library_least(text: &mut [u8], area: &mut [u8], lent: Range<usize>) -> LeastReply {
    let said = answered("asking for the least".to_owned(), |server| {
        server.made("Least", [0; 4], (text, 0), area, lent)
    });
    LeastReply::of(said.map(|number| number as u32))
}

/// One judging of values, which come back as the library left them.
pub fn library_judge(values: &mut Values) -> Finding {
    answered("judging values".to_owned(), |server| {
        server.ask_judge(values)
    })
}

fn bytes_of(words: &[u32]) -> Vec<u8> {
    words.iter().flat_map(|word| word.to_le_bytes()).collect()
}

/// Without the library there is nothing to compare.
fn give_up(what: &str, error: &Error) -> ! {
    println!("FAILED: the process that makes the library's calls {what}: {error}");
    std::process::exit(1)
}

impl Server {
    fn start() -> Result<Server> {
        let program = std::env::current_exe()?.with_file_name("server");
        let mut command = Command::new(program);
        let mut child = command
            .stdin(Stdio::piped())
            .stdout(Stdio::piped())
            .spawn()?;
        let (requests, answers) = (child.stdin.take(), child.stdout.take());
        Ok(Server {
            requests: BufWriter::new(requests.expect("its input is a pipe")),
            answers: BufReader::new(answers.expect("its output is a pipe")),
        })
    }

    fn ask(
        &mut self,
        call: Call,
        text: &mut [u8],
        area: &mut [u8],
        lent: Range<usize>,
    ) -> Result<Said> {
        let name = call.name();
        let said = self.made(&name, call.told(), (text, 0), area, lent)?;
        let [reason, line, byte, ..] = said.map(|number| number as u32);
        let refusal = Refusal { reason, line, byte };
        let (first, second) = (said[3] as usize, said[4] as usize);
        Ok(match call {
            Call::Parallel => Said::Pair(Pair::of(refusal, (first, second))),
            _ => Said::Reply(Reply::of(refusal, first)),
        })
    }

    fn ask_work(
        &mut self,
        ask: &Ask,
        words: &mut [u32],
        area: &mut [u8],
        lent: Range<usize>,
    ) -> Result<Told> {
        let mut bytes = bytes_of(words);
        let (name, work) = (ASK_NAMES[ask.place()], 4 * GUARD_WORDS);
        let said = self.made(name, ask.told(), (&mut bytes, work), area, lent)?;
        words.copy_from_slice(&words_of(&bytes));
        let [reason, line, byte, one, two, three, four] = said.map(|number| number as u32);
        Ok(match ask {
            Ask::Row(_) => Told::Row(RowReply {
                reason,
                line,
                first: one,
                second: two,
                amount: three,
            }),
            Ask::Write(_) => {
                let refusal = Refusal { reason, line, byte };
                Told::Text(Reply::of(refusal, said[3] as usize))
            }
            _ => Told::Work(WorkReply {
                reason,
                line,
                place: one,
                g: two,
                h: three,
                across: four,
            }),
        })
    }

    /// The values go as a text of words, those of the ring last; the counts of rows and
    /// links are told beside it.
    fn ask_judge(&mut self, values: &mut Values) -> Result<Finding> {
        let ring = [values.n, values.fibres, values.family];
        let numbers = values.numbers().into_iter().map(|number| *number);
        let words: Vec<u32> = numbers.chain(ring).collect();
        let mut bytes = bytes_of(&words);
        let told = [values.rows.len() as u32, values.links.len() as u32, 0, 0];
        let said = self.made("Judge", told, (&mut bytes, 0), &mut [], 0..0)?;
        for (number, word) in values.numbers().into_iter().zip(words_of(&bytes)) {
            *number = word;
        }
        let (reason, place) = (said[0] as u32, said[3] as u32);
        Ok(Finding { reason, place })
    }

    /// One request and its answer. A working table is handed over as a text, and
    /// begins at `work` in it.
    fn made(
        &mut self,
        name: &str,
        told: [u32; 4],
        (text, work): (&mut [u8], usize),
        area: &mut [u8],
        lent: Range<usize>,
    ) -> Result<[u64; 7]> {
        let lengths = [
            name.len(),
            text.len(),
            area.len(),
            lent.start,
            lent.end,
            work,
        ];
        let numbers = lengths.map(|length| length as u64).into_iter();
        for number in numbers.chain(told.map(u64::from)) {
            self.requests.write_all(&number.to_le_bytes())?;
        }
        for bytes in [name.as_bytes(), text, area] {
            self.requests.write_all(bytes)?;
        }
        self.requests.flush()?;
        let mut said = [0; 7];
        for number in &mut said {
            *number = self.number()?;
        }
        self.answers.read_exact(text)?;
        self.answers.read_exact(area)?;
        Ok(said)
    }

    fn number(&mut self) -> Result<u64> {
        let mut bytes = [0; 8];
        self.answers.read_exact(&mut bytes)?;
        Ok(u64::from_le_bytes(bytes))
    }
}
