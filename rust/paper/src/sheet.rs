//! A drawing as it is handed in, and the checks before its layout.

use std::fmt;

use super::{Answer, demand, limits, refuse, set, sum, within};

#[derive(Clone, PartialEq, Eq, Default)]
pub struct Sheet {
    pub lines: usize,
    pub bytes: usize,
    pub lengths: Vec<usize>,
    pub columns: Vec<usize>,
    pub text: Vec<u8>,
}

/// The text as characters, so that a printed difference can be read.
impl fmt::Debug for Sheet {
    fn fmt(&self, f: &mut fmt::Formatter<'_>) -> fmt::Result {
        let sizes = (self.lines, self.bytes, &self.lengths, &self.columns);
        write!(f, "{sizes:?} \"{}\"", self.text.escape_ascii())
    }
}

impl Sheet {
    /// A sheet whose arrays agree with its sizes.
    pub fn of(lines: &[(Vec<u8>, usize)]) -> Sheet {
        let mut sheet = Sheet::default();
        for (line, column) in lines {
            sheet.lines += 1;
            sheet.bytes += line.len();
            sheet.lengths.push(line.len());
            sheet.columns.push(*column);
            sheet.text.extend(line);
        }
        sheet
    }

    /// Line `number`, once the sizes are known to agree.
    pub fn line(&self, number: usize) -> &[u8] {
        let start: usize = self.lengths[..number].iter().sum();
        &self.text[start..start + self.lengths[number]]
    }

    /// 13.
    pub fn check_sizes(&self) -> Answer<()> {
        demand(self.lengths.len() == self.lines)?;
        demand(self.columns.len() == self.lines)?;
        demand(self.text.len() == self.bytes)?;
        demand(sum(&self.lengths) == Some(self.bytes))
    }

    /// 1, then 2.
    pub fn check_limits(&self) -> Answer<()> {
        if self.lines == 0 {
            return refuse(1, 0);
        }
        within(self.lines, limits::LINES)?;
        within(self.bytes, limits::BYTES)?;
        for r in 0..self.lines {
            within(self.lengths[r], limits::LINE_BYTES)?;
            within(self.columns[r], limits::LINE_COLUMN)?;
        }
        Ok(())
    }

    /// 3.
    pub fn check_characters(&self) -> Answer<()> {
        for r in 0..self.lines {
            if set::characters(self.line(r)).is_none() {
                return refuse(3, r);
            }
        }
        Ok(())
    }
}
