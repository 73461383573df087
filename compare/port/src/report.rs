// What was compared, call by call.
use std::collections::BTreeMap;
use std::fmt::Debug;

// who gave the answer that the port is held against
#[derive(Clone, Copy, PartialEq)]
pub enum By {
    Original,
    // the plain model of docs/SCOPE.md, or a worked example there
    Document,
}

#[derive(Default)]
struct Row {
    original: u64,
    document: u64,
    differed: u64,
}

#[derive(Default)]
pub struct Report {
    rows: BTreeMap<&'static str, Row>,
    shown: u64,
}

impl Report {
    // one call: it agrees if `kept` (nothing was written that should not be) and the answers are equal
    pub fn compare<T: PartialEq + Debug>(
        &mut self,
        call: &'static str,
        by: By,
        kept: bool,
        got: &T,
        want: &T,
        input: impl FnOnce() -> String,
    ) {
        let row = self.rows.entry(call).or_default();
        if by == By::Original {
            row.original += 1;
        } else {
            row.document += 1;
        }
        if kept && got == want {
            return;
        }
        row.differed += 1;
        self.shown += 1;
        if self.shown <= 20 {
            let stray = if kept { "" } else { ", and something else was written" };
            eprintln!("{call}, {}: the port gives {got:?}{stray}; wanted {want:?}", input());
        }
    }

    // the table, and the last line; whether nothing differed
    pub fn print(&self) -> bool {
        println!("{:24} {:>12} {:>12} {:>12}", "call", "original", "document", "differed");
        let (mut all, mut differed) = (0, 0);
        for (call, row) in &self.rows {
            println!("{call:24} {:>12} {:>12} {:>12}", row.original, row.document, row.differed);
            all += row.original + row.document;
            differed += row.differed;
        }
        println!("{} agreed, {differed} differed", all - differed);
        differed == 0
    }
}
