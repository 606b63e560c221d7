// The same arrivals at the same cells in plain Rust, by the standard library's ordered maps:
// `plain_groups CELLS ARRIVALS`. It prints the nanoseconds of an arrival and of a pane.
use std::collections::{BTreeMap, BTreeSet};
use std::rc::Rc;
use std::time::Instant;

const BUNDLE: u32 = 64;
const WINDOWS: u32 = 8;
const MINUTE: i64 = 60_000;

#[derive(Clone, PartialEq, Eq, PartialOrd, Ord)]
enum Value {
    Int(i64),
    Blob([u8; 4]),
    Pair(Rc<Value>, Rc<Value>),
}

#[derive(Clone)]
struct Element {
    value: Value,
    time: i64,
    span: (i64, i64),
}

struct Entry {
    element: Element,
    commit: u32,
    shown: bool,
}

struct Cell {
    key: Value,
    span: (i64, i64),
    entries: Vec<Entry>,
    next_index: u32,
    on_time: bool,
}

struct Pane {
    key: Value,
    span: (i64, i64),
    parts: Vec<Value>,
    index: u32,
    commit: u32,
}

#[derive(Default)]
struct Groups {
    cells: Vec<Cell>,
    places: BTreeMap<(u32, (i64, i64), Value), u32>,
    due: BTreeSet<(u32, i64, u32)>,
}

fn key_of(element: &Element) -> &Value {
    match &element.value {
        Value::Pair(key, _) => key,
        other => other,
    }
}

fn part_of(element: &Element) -> &Value {
    match &element.value {
        Value::Pair(_, part) => part,
        other => other,
    }
}

impl Groups {
    fn commit(&mut self, arrivals: Vec<Element>, mark: i64, commit: u32) -> Vec<Pane> {
        for element in arrivals {
            let at = (1, element.span, key_of(&element).clone());
            let entry = Entry {
                element,
                commit,
                shown: false,
            };
            match self.places.get(&at) {
                Some(place) => self.cells[*place as usize].entries.push(entry),
                None => {
                    let place = self.cells.len() as u32;
                    let span = at.1;
                    self.due.insert((1, span.1, place));
                    self.cells.push(Cell {
                        key: at.2.clone(),
                        span,
                        entries: vec![entry],
                        next_index: 0,
                        on_time: false,
                    });
                    self.places.insert(at, place);
                }
            }
        }
        self.fire(mark, commit)
    }

    fn fire(&mut self, mark: i64, commit: u32) -> Vec<Pane> {
        let due: Vec<_> = self
            .due
            .range((1, i64::MIN, 0)..=(1, mark, u32::MAX))
            .copied()
            .collect();
        let mut panes = Vec::new();
        for key in due {
            self.due.remove(&key);
            let cell = &mut self.cells[key.2 as usize];
            let mut parts: Vec<Value> = cell
                .entries
                .iter()
                .filter(|entry| !entry.shown)
                .map(|entry| part_of(&entry.element).clone())
                .collect();
            parts.sort();
            for entry in &mut cell.entries {
                entry.shown = true;
            }
            panes.push(Pane {
                key: cell.key.clone(),
                span: cell.span,
                parts,
                index: cell.next_index,
                commit,
            });
            cell.next_index += 1;
            cell.on_time = true;
        }
        panes.sort_by(|a, b| a.key.cmp(&b.key).then(a.span.cmp(&b.span)));
        panes
    }
}

fn arrival(number: u32, cells: u32) -> Element {
    let cell = (u64::from(number) * 7919 % u64::from(cells.max(1))) as u32;
    let start = i64::from(cell % WINDOWS) * MINUTE;
    let key = Rc::new(Value::Blob((cell / WINDOWS).to_be_bytes()));
    let part = Rc::new(Value::Int(i64::from(number)));
    Element {
        value: Value::Pair(key, part),
        time: start + 1,
        span: (start, start + MINUTE),
    }
}

fn main() {
    let words: Vec<u32> = std::env::args()
        .skip(1)
        .map(|word| word.parse().expect("a number"))
        .collect();
    let (cells, arrivals) = (words[0], words[1]);
    let mut groups = Groups::default();
    let mut placing = 0;
    let mut commit = 1;
    let mut from = 0;
    while from < arrivals {
        let to = arrivals.min(from + BUNDLE);
        let bundled: Vec<_> = (from..to).map(|number| arrival(number, cells)).collect();
        let start = Instant::now();
        let fired = groups.commit(bundled, i64::MIN, commit);
        placing += start.elapsed().as_nanos();
        assert!(fired.is_empty());
        from = to;
        commit += 1;
    }
    let start = Instant::now();
    let fired = groups.commit(Vec::new(), i64::MAX, commit);
    let firing = start.elapsed().as_nanos();
    let parts: usize = fired.iter().map(|pane| pane.parts.len()).sum();
    let told: u64 = fired
        .iter()
        .map(|pane| u64::from(pane.index) + u64::from(pane.commit) + (pane.span.1 - pane.span.0) as u64)
        .sum();
    let seen: i64 = groups
        .cells
        .iter()
        .flat_map(|cell| &cell.entries)
        .map(|entry| entry.element.time + i64::from(entry.commit))
        .sum();
    eprintln!("{parts} {told} {seen}");
    println!("{} cells, {} panes", groups.cells.len(), fired.len());
    println!("{} ns an arrival", placing / u128::from(arrivals.max(1)));
    println!("{} ns a pane", firing / fired.len().max(1) as u128);
}
