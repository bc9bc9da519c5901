//! Times libtwine.a, through its C interface, and the second program in `../reference`, in one process, alternating, and prints
//! tables in Markdown: all of them, or those that its arguments name.

#![deny(unsafe_code)]

#[path = "../../differential/src/ffi.rs"]
mod ffi;
mod plans;
mod rewrite;
mod rows;
mod timing;

use std::io::{self, Write};

use plans::{Dead, Letters, Shape, LABELS};
use rows::Row;
use timing::Clock;

/// The lengths of the files.
const LENGTHS: [(usize, &str); 4] = [(16 << 10, "16 KB"), (256 << 10, "256 KB"), (4 << 20, "4 MB"), (16 << 20, "16 MB")];

/// As many files of 16 KB are 16 MB.
const FILES: usize = 1024;

fn main() -> io::Result<()> {
    let tables = [
        ("check", Page::check as fn(&mut Page<_>) -> io::Result<()>),
        ("depths", Page::depths),
        ("queries", Page::queries),
        ("writer", Page::writer),
        ("labels", Page::labels),
        ("prune", Page::prune),
    ];
    let only: Vec<String> = std::env::args().skip(1).collect();
    let mut page = Page { clock: Clock::new(), out: io::stdout().lock() };
    writeln!(page.out, "- Version of the C interface: {}", ffi::version())?;
    for (name, table) in tables {
        if only.is_empty() || only.iter().any(|only| only == name) {
            table(&mut page)?;
        }
    }
    let waited = 100.0 * page.clock.waited();
    writeln!(
        page.out,
        "\nAnother process had the processor for {waited:.0} % of the time; if that is more than a few, the figures are too high."
    )
}

/// The tables, each printed as it is measured.
struct Page<W> {
    clock: Clock,
    out: W,
}

impl<W: Write> Page<W> {
    /// The table of check, and how its time for a byte grows.
    fn check(&mut self) -> io::Result<()> {
        self.title("Check", "A file, and a table of as many words as it has values. A value is one of the row, with its items.")?;
        self.head("values", "value", true)?;
        let mut grown = Vec::new();
        for shape in Shape::ALL {
            let files = rows::files(shape, FILES);
            let one = rows::check(&self.clock, ffi::STRICT, &files[..1]);
            self.row(&format!("{}, 16 KB, one file", shape.name()), &one)?;
            let short = rows::check(&self.clock, ffi::STRICT, &files);
            self.row(&format!("{}, 16 KB, 1,024 files", shape.name()), &short)?;
            let mut long = short;
            for (length, name) in &LENGTHS[1..] {
                long = rows::check(&self.clock, ffi::STRICT, &[plans::make(shape, *length, 1)]);
                self.row(&format!("{}, {name}", shape.name()), &long)?;
            }
            grown.push((shape, short, long));
        }
        let padded = rows::check(&self.clock, ffi::TOLERANT, &rows::padded_files(Shape::Plan, FILES));
        self.row("plan-like, 16 KB, 1,024 files, padded to five bytes, tolerant mode", &padded)?;
        writeln!(self.out, "\nThe time for a byte in a file of 16 MB, over that in 1,024 files of 16 KB:\n")?;
        writeln!(self.out, "| files | libtwine.a | second |\n|---|--:|--:|")?;
        for (shape, short, long) in grown {
            let growth = |program| long.per_byte(program) / short.per_byte(program);
            let [product, second] = [0, 1].map(growth);
            writeln!(self.out, "| {} | {product:.2} | {second:.2} |", shape.name())?;
        }
        Ok(())
    }

    /// The table of depths.
    fn depths(&mut self) -> io::Result<()> {
        self.title("Depths", "The same with a second table of as many words.")?;
        self.head("values", "value", true)?;
        for shape in [Shape::Plan, Shape::Pointer] {
            let row = rows::depths(&self.clock, &rows::files(shape, FILES));
            self.row(&format!("{}, 16 KB, 1,024 files", shape.name()), &row)?;
            for (length, name) in &LENGTHS[1..] {
                let row = rows::depths(&self.clock, &[plans::make(shape, *length, 1)]);
                self.row(&format!("{}, {name}", shape.name()), &row)?;
            }
        }
        Ok(())
    }

    /// The table of queries.
    fn queries(&mut self) -> io::Result<()> {
        self.title(
            "Item and lookup",
            "In the plan-like file of 256 KB: `item` for each item of each value; `lookup` for each key of each map, and as often for a key that \
             is in none.\nIn an array of 100,000 integers: `item` for the last, the time for each item that is passed.",
        )?;
        self.head("queries or items", "one", false)?;
        let plan = plans::make(Shape::Plan, 256 << 10, 1);
        let row = rows::items(&self.clock, &plan);
        self.row("item", &row)?;
        let row = rows::lookups(&self.clock, &plan, true);
        self.row("lookup of a key", &row)?;
        let row = rows::lookups(&self.clock, &plan, false);
        self.row("lookup of no key", &row)?;
        let row = rows::last_item(&self.clock, 100_000);
        self.row("item 99,999", &row)
    }

    /// The table of the writer.
    fn writer(&mut self) -> io::Result<()> {
        self.title(
            "Writer",
            "The calls that write a file, the close among them, one by one: a function of the C interface for each, and `Writer::step`, which \
             the compiler\nputs into the loop.",
        )?;
        self.head("calls", "call", true)?;
        for shape in Shape::ALL {
            let row = rows::writes(&self.clock, &rows::files(shape, FILES / 8));
            self.row(&format!("{}, 16 KB, 128 files", shape.name()), &row)?;
            for (length, name) in &LENGTHS[1..] {
                let row = rows::writes(&self.clock, &[plans::make(shape, *length, 1)]);
                self.row(&format!("{}, {name}", shape.name()), &row)?;
            }
        }
        Ok(())
    }

    /// The table of labels.
    fn labels(&mut self) -> io::Result<()> {
        self.title(
            "Labels",
            "Files of 64 labels, as many as have 256 KB of labels, and the time for one label: of `check`, which reads its header too; of the \
             writer's call for a\ntext, which writes header and bytes too; and of `std::str::from_utf8`, the test of Rust's library, which is given the \
             bytes alone.",
        )?;
        writeln!(
            self.out,
            "| | labels | check, libtwine.a, ns | check, second, ns | ratio | text call, libtwine.a, ns | text call, second, ns | ratio | from_utf8, ns |\n\
             |---|--:|--:|--:|--:|--:|--:|--:|--:|"
        )?;
        let [plain, mixed, wide] = [Letters::Plain, Letters::Mixed, Letters::Wide];
        for (letters, length, name) in [
            (plain, 4096, "4,096"),
            (plain, 64, "64"),
            (plain, 20, "20"),
            (plain, 5, "5"),
            (mixed, 4096, "4,096"),
            (mixed, 64, "64"),
            (wide, 64, "64"),
        ] {
            let files = rows::label_files(letters, length);
            let labels = files.len() * LABELS;
            write!(self.out, "| {}, {name} bytes | {labels} |", letters.name())?;
            for row in [rows::check(&self.clock, ffi::STRICT, &files), rows::writes(&self.clock, &files)] {
                let [product, second] = row.nanoseconds.map(|time| time / labels as f64);
                write!(self.out, " {product:.1} | {second:.1} | {:.2} |", product / second)?;
            }
            writeln!(self.out, " {:.1} |", rows::from_utf8(&self.clock, &files) / labels as f64)?;
            self.out.flush()?;
        }
        Ok(())
    }

    /// The table of prune, and how its time for a byte grows.
    fn prune(&mut self) -> io::Result<()> {
        self.title(
            "Prune",
            "`prune` of a file, with an output of its length and tables of as many words as it has values; and, by the library's own calls, `check` of \
             the\nsame file and rewriting of all of it: `read` of each value and item, and the writer's call for it. Both are libtwine.a, and the ratio is \
             prune over\ncheck and rewriting. The dead values are among the others at random; their share is that of all values.",
        )?;
        writeln!(
            self.out,
            "| | values | dead | prune, ns/value | check and rewriting, ns/value | ratio | prune, ns/byte | check and rewriting, ns/byte |\n\
             |---|--:|--:|--:|--:|--:|--:|--:|"
        )?;
        let mut grown = Vec::new();
        for (shape, dead) in
            [Shape::Plan, Shape::Text, Shape::Pointer].into_iter().flat_map(|shape| Dead::ALL.map(|dead| (shape, dead)))
        {
            let (short, share) = rows::prunes(&self.clock, &rows::rebuilt_files(shape, dead, FILES));
            self.prune_row(&format!("{}, {}, 16 KB, 1,024 files", shape.name(), dead.name()), &short, share)?;
            let mut long = short;
            for (length, name) in &LENGTHS[1..] {
                let share;
                (long, share) = rows::prunes(&self.clock, &[plans::rebuilt(shape, dead, *length, 1)]);
                self.prune_row(&format!("{}, {}, {name}", shape.name(), dead.name()), &long, share)?;
            }
            grown.push((shape, dead, [0, 1].map(|program| long.per_byte(program) / short.per_byte(program))));
        }
        writeln!(self.out, "\nThe time for a byte in a file of 16 MB, over that in 1,024 files of 16 KB:\n")?;
        writeln!(self.out, "| files | prune | check and rewriting |\n|---|--:|--:|")?;
        for (shape, dead, [prune, rewriting]) in grown {
            writeln!(self.out, "| {}, {} | {prune:.2} | {rewriting:.2} |", shape.name(), dead.name())?;
        }
        Ok(())
    }

    fn prune_row(&mut self, name: &str, row: &Row, dead: f64) -> io::Result<()> {
        let [prune, rewriting] = row.nanoseconds.map(|time| time / row.units as f64);
        let (ratio, percent) = (prune / rewriting, 100.0 * dead);
        write!(self.out, "| {name} | {} | {percent:.0} % | {prune:.1} | {rewriting:.1} | {ratio:.2} |", row.units)?;
        writeln!(self.out, " {:.2} | {:.2} |", row.per_byte(0), row.per_byte(1))?;
        self.out.flush()
    }

    fn title(&mut self, title: &str, about: &str) -> io::Result<()> {
        writeln!(self.out, "\n## {title}\n\n{about}\n")
    }

    /// The head of a table: what is counted, one of them, and whether bytes count too.
    fn head(&mut self, units: &str, unit: &str, has_bytes: bool) -> io::Result<()> {
        write!(self.out, "| | {units} | libtwine.a, ns/{unit} | second, ns/{unit} | ratio |")?;
        if has_bytes {
            write!(self.out, " libtwine.a, ns/byte | second, ns/byte |")?;
        }
        write!(self.out, "\n|---|--:|--:|--:|--:|")?;
        writeln!(self.out, "{}", if has_bytes { "--:|--:|" } else { "" })
    }

    fn row(&mut self, name: &str, row: &Row) -> io::Result<()> {
        let [product, second] = row.nanoseconds.map(|time| time / row.units as f64);
        let ratio = product / second;
        write!(self.out, "| {name} | {} | {product:.1} | {second:.1} | {ratio:.2} |", row.units)?;
        if row.bytes > 0 {
            write!(self.out, " {:.2} | {:.2} |", row.per_byte(0), row.per_byte(1))?;
        }
        writeln!(self.out)?;
        self.out.flush()
    }
}
