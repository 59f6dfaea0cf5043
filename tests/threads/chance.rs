//! Units make scripts by chance on threads: each history is audited, and gives what was settled.

use super::shop::{SHOP, ends_with_ticket, is_audited};
use dbtg_run::{Database, NoGate, Settled, run_units};
use dbtg_schema::{Row, Schema};
use dbtg_script::read_script;
use dbtg_unit::Statement;
use std::alloc::Global;
use std::sync::Wait;
use std::thread::Threads;

const OPENS: &[u8] = b"OPEN AREA MAIN USAGE-MODE IS UPDATE\nOPEN AREA SIDE USAGE-MODE IS UPDATE\n";

// The statements from which a script is drawn: few records, so that units meet at them.
const STATEMENTS: [&[u8]; 24] = [
    b"STORE CUSTOMER CNO = 1\n",
    b"STORE CUSTOMER CNO = 2\n",
    b"STORE ORDR ONO = 1\n",
    b"STORE ITEM PART = \"A\" QTY = 1\n",
    b"STORE ITEM PART = \"B\" QTY = 2\n",
    b"FIND KEY CUSTOMER:1\n",
    b"FIND KEY ORDR:1\n",
    b"FIND KEY ITEM:1\n",
    b"FIND KEY ITEM:2\n",
    b"FIND FIRST OF LINES SET\n",
    b"FIND NEXT OF LINES SET\n",
    b"FIND OWNER OF LINES SET\n",
    b"FIND CALC ITEM RECORD USING PART = \"A\"\n",
    b"GET\n",
    b"KEEP\n",
    b"FREE\n",
    b"MODIFY ITEM QTY = 3\n",
    b"REMOVE FROM LINES\n",
    b"INSERT INTO LINES\n",
    b"INSERT INTO WATCH\n",
    b"REMOVE FROM WATCH\n",
    b"DELETE\n",
    b"DELETE ALL\n",
    b"CLOSE AREA SIDE\n",
];

const DRAWN: usize = 10;

// Numbers by chance, the same in each test: the high bits of a linear congruence.
#[derive(Drop)]
pub struct Chance {
    state: u64,
}

impl Chance {
    pub fn of(seed: u64) -> Self {
        Self { state: seed }
    }

    fn below(&mut self, count: usize) -> usize {
        self.state = self.state.wrapping_mul(6364136223846793005).wrapping_add(1442695040888963407);
        (self.state >> 33) as usize % count
    }

    // Both areas are opened, and then this many statements are drawn.
    fn script(&mut self, alloc: Global, schema: &Schema) -> Option<Row<Statement>> {
        let mut text = Vec::new(alloc);
        text.extend_from_slice(OPENS).ok()?;
        for _ in 0..DRAWN {
            text.extend_from_slice(STATEMENTS[self.below(STATEMENTS.len())]).ok()?;
        }
        Some(Row::of(read_script(alloc, schema, text.as_slice()).ok()?))
    }

    fn scripts(&mut self, alloc: Global, schema: &Schema, count: u8) -> Option<Vec<Row<Statement>>> {
        let mut scripts = Vec::new(alloc);
        for _ in 0..count {
            scripts.push(self.script(alloc, schema)?).ok()?;
        }
        Some(scripts)
    }
}

fn is_sound(alloc: Global, settled: &Settled, count: u8) -> bool {
    let last = count as u64 * (DRAWN as u64 + 2) - 1;
    ends_with_ticket(settled, last) && is_audited(alloc, settled, 10, count)
}

// This many units run to their ends, each by a script of its own. Whether the history is the sequential database's; none where the
// database is not settled.
pub fn is_sound_run<R: Threads + Wait + Sync>(rt: &R, alloc: Global, chance: &mut Chance, count: u8) -> Option<bool> {
    let (db, units) = Database::make(alloc, Schema::read(alloc, SHOP).ok()?, 10, count).ok()?;
    let scripts = chance.scripts(alloc, &db.schema, count)?;
    let settled = run_units(rt, alloc, db, units, scripts.as_slice(), &NoGate).ok()?;
    Some(is_sound(alloc, &settled, count))
}
