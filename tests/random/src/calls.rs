//! A call: its buffers and where they lie, what the archive makes of them, and what the
//! reference makes of equal ones.

use crate::guard::{Ground, Place};
use std::fmt;

/// A buffer's start and its length in bytes; include/hutplan.h names the buffers.
type At = *mut u8;
type Len = usize;

extern "C" {
    fn hutplan_read(_: At, _: Len, _: At, _: Len, _: At, _: Len) -> u32;
    fn hutplan_write(_: At, _: Len, _: At, _: Len, _: At, _: Len) -> u32;
    fn hutplan_plan(
        _: At,
        _: Len,
        _: At,
        _: Len,
        _: At,
        _: Len,
        _: At,
        _: Len,
        _: At,
        _: Len,
        _: At,
        _: Len,
        _: At,
        _: Len,
    ) -> u32;
}

#[derive(Clone, Copy, PartialEq)]
pub enum Call {
    Read,
    Write,
    Plan,
}

pub const CALLS: [Call; 3] = [Call::Read, Call::Write, Call::Plan];

impl Call {
    pub fn name(self) -> &'static str {
        ["read", "write", "plan"][self as usize]
    }

    /// The names of its buffers, in the order of its arguments.
    pub fn buffers(self) -> &'static [&'static str] {
        match self {
            Call::Read => &["sheet", "table", "answer"],
            Call::Write => &["table", "sheet", "answer"],
            Call::Plan => &[
                "table", "demands", "grants", "caps", "headroom", "held", "answer",
            ],
        }
    }

    /// The refusals that it can give; 0 is acceptance.
    pub fn refusals(self) -> &'static [usize] {
        match self {
            Call::Read => &[0, 1, 2, 3, 4, 5, 6, 7, 8, 9, 12],
            Call::Write => &[0, 4, 5, 6, 7, 8, 9, 12],
            Call::Plan => &[0, 4, 5, 6, 7, 8, 9, 10, 11, 12, 13, 14, 15],
        }
    }
}

#[derive(Clone, PartialEq)]
pub struct Buffer {
    pub place: Place,
    pub bytes: Vec<u8>,
}

#[derive(Clone, PartialEq)]
pub struct Case {
    pub call: Call,
    pub buffers: Vec<Buffer>,
}

/// All that a call gives: every byte of every buffer, inputs too.
#[derive(PartialEq)]
pub struct Outcome {
    pub returned: u32,
    pub buffers: Vec<Vec<u8>>,
    pub strayed: bool,
}

impl Outcome {
    /// The number of the refusal, 0 if accepted; none if the answer was too short.
    pub fn number(&self) -> Option<u64> {
        let answer = self.buffers.last()?.first_chunk::<8>()?;
        (self.returned == 1).then_some(u64::from_le_bytes(*answer))
    }
}

/// Ground for every buffer of the call that has most of them.
pub type Grounds = [Ground; 7];

/// Runs the archive on a copy of the buffers.
pub fn archive(case: &Case, grounds: &mut Grounds) -> Outcome {
    let lend =
        |(ground, b): (&mut Ground, &Buffer)| (ground.lend(b.place, &b.bytes), b.bytes.len());
    let lent: Vec<_> = grounds.iter_mut().zip(&case.buffers).map(lend).collect();
    // SAFETY: the lent buffers have these lengths and lie apart.
    let returned = unsafe {
        match (case.call, &lent[..]) {
            (Call::Read, &[(s, sn), (t, tn), (a, an)]) => hutplan_read(s, sn, t, tn, a, an),
            (Call::Write, &[(t, tn), (s, sn), (a, an)]) => hutplan_write(t, tn, s, sn, a, an),
            (Call::Plan, &[(t, tn), (d, dn), (g, gn), (c, cn), (h, hn), (b, bn), (a, an)]) => {
                hutplan_plan(t, tn, d, dn, g, gn, c, cn, h, hn, b, bn, a, an)
            }
            _ => panic!("wrong count of buffers"),
        }
    };
    let mut outcome = Outcome {
        returned,
        buffers: Vec::new(),
        strayed: false,
    };
    for (ground, buffer) in grounds.iter_mut().zip(&case.buffers) {
        let (bytes, whole) = ground.take_back(buffer.place, buffer.bytes.len());
        outcome.buffers.push(bytes);
        outcome.strayed |= !whole;
    }
    outcome
}

/// Runs the reference on a copy of the buffers.
pub fn reference(case: &Case) -> Outcome {
    let mut buffers: Vec<Vec<u8>> = case.buffers.iter().map(|b| b.bytes.clone()).collect();
    let returned = match (case.call, &mut buffers[..]) {
        (Call::Read, [sheet, table, answer]) => reference::call::read(sheet, table, answer),
        (Call::Write, [table, sheet, answer]) => reference::call::write(table, sheet, answer),
        (Call::Plan, [table, demands, grants, caps, headroom, held, answer]) => {
            reference::call::plan(table, demands, grants, caps, headroom, held, answer)
        }
        _ => panic!("wrong count of buffers"),
    };
    Outcome {
        returned,
        buffers,
        strayed: false,
    }
}

fn hex(bytes: &[u8]) -> String {
    bytes.iter().map(|byte| format!(" {byte:02X}")).collect()
}

/// The form of a file to replay: the call, then for each buffer its name, place and bytes.
impl fmt::Display for Case {
    fn fmt(&self, out: &mut fmt::Formatter) -> fmt::Result {
        writeln!(out, "call {}", self.call.name())?;
        for (name, buffer) in self.call.buffers().iter().zip(&self.buffers) {
            let (side, gap) = match buffer.place {
                Place::Front(gap) => ("front", gap),
                Place::Back(gap) => ("back", gap),
                Place::Null => ("null", 0),
            };
            writeln!(out, "{name} {side} {gap}{}", hex(&buffer.bytes))?;
        }
        Ok(())
    }
}

impl Case {
    /// Reads the form back; lines that begin with # are left out.
    pub fn parse(text: &str) -> Option<Case> {
        let mut lines = text.lines().filter(|line| !line.starts_with('#'));
        let name = lines.next()?.strip_prefix("call ")?;
        let call = *CALLS.iter().find(|call| call.name() == name)?;
        let buffers: Option<Vec<Buffer>> = lines.map(Buffer::parse).collect();
        let buffers = buffers.filter(|b| b.len() == call.buffers().len())?;
        Some(Case { call, buffers })
    }

    /// Both outcomes, as remarks in the same file.
    pub fn remarks(&self, archive: &Outcome, reference: &Outcome) -> String {
        let mut text = String::new();
        for (who, outcome) in [("archive", archive), ("reference", reference)] {
            text += &format!("# {who}: returned {}\n", outcome.returned);
            for (name, bytes) in self.call.buffers().iter().zip(&outcome.buffers) {
                text += &format!("#   {name}{}\n", hex(bytes));
            }
        }
        if archive.strayed {
            text += "# the archive wrote outside of its buffers\n";
        }
        text
    }
}

impl Buffer {
    fn parse(line: &str) -> Option<Buffer> {
        let mut parts = line.split_whitespace().skip(1);
        let (side, gap) = (parts.next()?, parts.next()?.parse().ok()?);
        let place = match side {
            "front" => Place::Front(gap),
            "back" => Place::Back(gap),
            _ => Place::Null,
        };
        let bytes = parts.map(|byte| u8::from_str_radix(byte, 16));
        let bytes = bytes.collect::<Result<_, _>>().ok()?;
        Some(Buffer { place, bytes })
    }
}
