//! Tables of one agent's constraints, beside a list that is looked through.
use super::{no_cell, no_move};
use crate::crates::mapf_constraints::{BarTable, ListBars, TickBars};
use crate::crates::mapf_model::{Bar, Cell, OutOfMemory, Tick};
use crate::memory::assert_refusals_told;
use crate::rattle_std::alloc::Global;

/// The tick of a constraint.
fn tick_of(bar: &Bar) -> Tick {
    match *bar {
        Bar::Cell { tick, .. } | Bar::Move { tick, .. } => tick,
    }
}

/// The cell that a constraint forbids to be in at a tick, and the tick.
fn arrival_of(bar: &Bar) -> (Cell, Tick) {
    match *bar {
        Bar::Cell { cell, tick } => (cell, tick),
        Bar::Move { to, tick, .. } => (to, tick + 1),
    }
}

/// Whether a table has the constraint.
fn has<B: BarTable>(table: &B, bar: Bar) -> bool {
    match bar {
        Bar::Cell { cell, tick } => table.bars_cell(cell, tick),
        Bar::Move { from, to, tick } => table.bars_move(from, to, tick),
    }
}

/// The table has just these constraints of a tick on a cell, on a move from it, and on a move to it.
#[track_caller]
fn assert_holds_at<B: BarTable>(table: &B, bars: &[Bar], cell: u32, tick: Tick) {
    for bar in [no_cell(cell, tick), no_move(cell, cell + 1, tick), no_move(cell + 1, cell, tick)] {
        assert_eq!(has(table, bar), bars.contains(&bar), "{bar:?}");
    }
    let is_open = !bars.iter().any(|bar| arrival_of(bar) == (Cell(cell), tick));
    assert!(is_open || table.may_bar_arrival(Cell(cell), tick), "{cell} at {tick}");
    let is_free = !bars.iter().any(|bar| tick_of(bar) == tick);
    assert!(is_free || table.may_bar_at(tick), "at {tick}");
}

/// The greatest tick of a constraint on a cell.
fn last_on(bars: &[Bar], cell: Cell) -> Option<Tick> {
    let on_cell = |bar: &&Bar| matches!(bar, Bar::Cell { cell: on, .. } if *on == cell);
    bars.iter().filter(on_cell).map(tick_of).max()
}

/// The table answers as these constraints want it, of 32 cells and 52 ticks. This takes no memory.
#[track_caller]
fn assert_holds<B: BarTable>(table: &B, bars: &[Bar]) {
    for (cell, tick) in (0..32).flat_map(|cell| (0..52).map(move |tick| (cell, tick))) {
        assert_holds_at(table, bars, cell, tick);
    }
    let is_last = |&cell: &Cell| table.last_on(cell) == last_on(bars, cell);
    assert_eq!((0..32).map(Cell).find(|cell| !is_last(cell)), None);
    assert_eq!(table.horizon(), bars.iter().map(|bar| tick_of(bar) + 1).max().unwrap_or(0));
}

/// A table of these constraints, which has each of them as soon as it is added. Where memory is refused it holds those
/// that were added before.
fn table_of<B: BarTable>(bars: &[Bar]) -> Result<B, OutOfMemory> {
    let mut table = B::empty(Global);
    for (count, &bar) in bars.iter().enumerate() {
        if let Err(refused) = table.add(bar) {
            assert_holds(&table, &bars[..count]);
            return Err(refused);
        }
        assert!(has(&table, bar), "{bar:?}");
    }
    Ok(table)
}

/// Both kinds of tables hold these constraints, and so do their copies.
#[track_caller]
fn assert_both_hold(bars: &[Bar]) {
    let (list, index): (ListBars, TickBars) = (table_of(bars).expect("memory"), table_of(bars).expect("memory"));
    assert_holds(&list, bars);
    assert_holds(&index, bars);
    assert_holds(&list.copy().expect("memory"), bars);
    assert_holds(&index.copy().expect("memory"), bars);
}

#[test]
fn both_tables_know_the_last_tick_of_a_cell() {
    assert_both_hold(&[]);
    assert_both_hold(&[no_cell(1, 5)]);
    let table: TickBars = table_of(&[no_cell(1, 5)]).expect("memory");
    assert_eq!((table.last_on(Cell(0)), table.last_on(Cell(1)), table.horizon()), (None, Some(5), 6));
}

/// A few hundred constraints, some of them twice.
fn many_bars() -> Vec<Bar> {
    let pair = |k: u32| {
        let from = 11 * k % 20;
        [no_cell(7 * k % 20, 13 * k % 50), no_move(from, from + 1, 17 * k % 45)]
    };
    (0..300).flat_map(pair).collect()
}

#[test]
fn both_tables_hold_many_constraints() {
    assert_both_hold(&many_bars());
}

/// A table that is cleared holds nothing, and then others.
fn assert_is_cleared<B: BarTable>() {
    let mut table: B = table_of(&many_bars()).expect("memory");
    table.clear();
    assert_holds(&table, &[]);
    table.add(no_cell(3, 4)).expect("memory");
    assert_holds(&table, &[no_cell(3, 4)]);
}

#[test]
fn a_table_is_cleared() {
    assert_is_cleared::<ListBars>();
    assert_is_cleared::<TickBars>();
}

/// A table, and its copy, that are refused memory tell it, and hold what they held before.
fn assert_stays_as_it_is<B: BarTable>() {
    let pair = |k: u32| [no_cell(7 * k % 31, 5 * k % 8), no_move(7 * k % 31, 7 * k % 31 + 1, 5 * k % 8)];
    let bars: Vec<Bar> = (0..60).flat_map(pair).collect();
    let call = || -> Result<(), OutOfMemory> {
        let table: B = table_of(&bars)?;
        let copy = table.copy();
        assert_holds(&table, &bars);
        assert_holds(&copy?, &bars);
        Ok(())
    };
    assert_refusals_told(call, |_| true);
}

#[test]
fn a_list_that_is_refused_memory_stays_as_it_is() {
    assert_stays_as_it_is::<ListBars>();
}

#[test]
fn an_index_that_is_refused_memory_stays_as_it_is() {
    assert_stays_as_it_is::<TickBars>();
}
