//! A whole works in one call: a bundle of sheets, accounted for with two books and
//! one fugitive table.

use crate::{desk, number_at, Outcome, Refused, Tables, MOST_CELLS};
use std::fmt;
use std::ops::Range;

/// The most sheets in a bundle.
pub const MOST_SHEETS: usize = 16;

/// Accounts for every sheet of a bundle with two books and one fugitive table, in
/// memory of the caller.
///
/// If the bundle is taken, sheet `i` owns the `i`-th run of the bundle's cells
/// per sheet in each result. Its runs are then what [`account`](crate::account)
/// leaves for that sheet alone with these runs lent, and `outcomes[i]` is what
/// the desk answers, for [`Outcome::from_answer`]. A refused sheet has zeros in
/// its own runs only. Cells past all runs, and outcomes past the number of
/// sheets, keep their values.
///
/// A malformed bundle, and then one whose runs or outcomes have no room, is
/// refused as a whole, before the books, the fugitive table and the sheets are
/// looked at. All cells of both results and all outcomes are zero then.
pub fn account_bundle(
    own: &[u8],
    book: &[u8],
    fugitive: &[u8],
    bundle: &[u8],
    exact: &mut [u64],
    shown: &mut [u64],
    outcomes: &mut [u64],
) -> Outcome {
    Outcome::from_answer(desk::account_bundle(own, book, fugitive, bundle, exact, shown, outcomes))
}

/// Accounts for every sheet of a bundle with two books and one fugitive table:
/// what [`declare`] gives for each of them, or the refusal of the whole bundle. A
/// sheet for which the bundle's cells per sheet are too few is refused with 3.
///
/// It lends as much as 16 sheets of 128 lines need. A bundle that states more
/// cells in all is refused with 3.
///
/// ```
/// let book = std::fs::read("../examples/works-001/book.bin")?;
/// let fugitive = std::fs::read("../examples/works-001/fugitive.bin")?;
/// let bundle = std::fs::read("../examples/works-001/bundle.bin")?;
/// let works = checkraven::declare_bundle(&checkraven::NO_OWN, &book, &fugitive, &bundle)?;
/// for sheet in works.sheets() {
///     match sheet {
///         Ok(tables) => println!("{} discharged", tables.total().shown.discharged),
///         Err(refused) => println!("{refused}: {}", refused.refusal),
///     }
/// }
/// # Ok::<(), Box<dyn std::error::Error>>(())
/// ```
///
/// [`declare`]: crate::declare
pub fn declare_bundle(
    own: &[u8],
    book: &[u8],
    fugitive: &[u8],
    bundle: &[u8],
) -> Result<Works, Refused> {
    let most = MOST_SHEETS * MOST_CELLS;
    let (mut exact, mut shown) = (vec![0; most], vec![0; most]);
    let mut outcomes = [0; MOST_SHEETS];
    account_bundle(own, book, fugitive, bundle, &mut exact, &mut shown, &mut outcomes)
        .accepted()?;
    let tables = |(outcome, (sheet, run)): (&u64, (&[u8], Range<usize>))| {
        Outcome::from_answer(*outcome).accepted()?;
        Ok(Tables::new(sheet, exact[run.clone()].to_vec(), shown[run].to_vec()))
    };
    Ok(Works { sheets: outcomes.iter().zip(sheets_and_runs(bundle)).map(tables).collect() })
}

/// The sheets of a bundle that is taken, each with the cells that it owns.
fn sheets_and_runs(bundle: &[u8]) -> impl Iterator<Item = (&[u8], Range<usize>)> {
    // The two bytes after the number of sheets are zero.
    let (sheets, cells) = (number_at(bundle, 4), number_at(bundle, 8));
    (0..sheets).map(move |index| {
        let entry = 12 + 8 * index;
        let (offset, length) = (number_at(bundle, entry), number_at(bundle, entry + 4));
        (&bundle[offset..offset + length], index * cells..(index + 1) * cells)
    })
}

/// What the sheets of a bundle have come to. Shown as the program prints it.
#[derive(Clone, Debug, PartialEq, Eq)]
pub struct Works {
    sheets: Vec<Result<Tables, Refused>>,
}

impl Works {
    /// The tables or the refusal of each sheet, in the order of the bundle.
    pub fn sheets(&self) -> &[Result<Tables, Refused>] {
        &self.sheets
    }
}

impl fmt::Display for Works {
    fn fmt(&self, out: &mut fmt::Formatter<'_>) -> fmt::Result {
        for (index, sheet) in self.sheets.iter().enumerate() {
            writeln!(out, "sheet {}", index + 1)?;
            match sheet {
                Ok(tables) => write!(out, "{tables}")?,
                Err(refused) => writeln!(out, "{refused}")?,
            }
        }
        Ok(())
    }
}
