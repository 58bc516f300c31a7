//! Damaged texts and arrays of any numbers: no call ends but by an answer or an error that has words.
use super::{CROSSING_CERTIFICATE, CROSSING_PLAN, crossing};
use mapf::{Cell, Error, Plan, Problem, Verdict, check, validate, validate_paths};

/// Numbers that are always the same (xorshift).
struct Numbers(u64);

impl Numbers {
    fn next(&mut self) -> u64 {
        self.0 ^= self.0 << 13;
        self.0 ^= self.0 >> 7;
        self.0 ^= self.0 << 17;
        self.0
    }

    /// A number below another one.
    fn below(&mut self, end: usize) -> usize {
        (self.next() % end as u64) as usize
    }
}

/// What may come into a text.
const PIECES: [&str; 16] = [
    "\n",
    " ",
    "0",
    "1",
    "-1",
    "4294967295",
    "4294967296",
    "99999999999999999999",
    ",",
    "inf",
    "end\n",
    "\r",
    "\0",
    "é",
    "leaf 0\n",
    "mapf-cert 3\n",
];

/// A text with some pieces put in, taken out and doubled.
fn damaged(text: &str, numbers: &mut Numbers) -> Vec<u8> {
    let mut bytes = text.as_bytes().to_vec();
    for _ in 0..=numbers.below(3) {
        let place = numbers.below(bytes.len() + 1);
        let end = (place + numbers.below(9)).min(bytes.len());
        let piece = match numbers.below(4) {
            0 => Vec::new(),
            1 => bytes[place..end].repeat(2),
            2 => vec![numbers.next() as u8],
            _ => PIECES[numbers.below(PIECES.len())].as_bytes().to_vec(),
        };
        bytes.splice(place..end, piece);
    }
    bytes
}

/// Tries that an error has words.
#[track_caller]
fn assert_worded<T>(answer: Result<T, Error>) -> Option<T> {
    match answer {
        Ok(answer) => Some(answer),
        Err(error) => {
            let words = error.to_string();
            assert!(words.len() > 20 && words.contains(' '), "{words}");
            None
        }
    }
}

#[test]
fn damaged_texts_are_answered() {
    let problem = crossing();
    let (map, scenario) = ("type octile\nheight 3\nwidth 3\nmap\n...\n...\n...\n", problem.scenario_text());
    let scenario = str::from_utf8(scenario).expect("a text");
    let mut numbers = Numbers(102);
    for _ in 0..3_000 {
        assert_worded(Problem::from_movingai(damaged(map, &mut numbers), scenario, 2));
        assert_worded(Problem::from_movingai(map, damaged(scenario, &mut numbers), 2));
        let plan = damaged(CROSSING_PLAN, &mut numbers);
        if let Some(cost) = assert_worded(validate(&problem, &plan)) {
            // No plan costs less than 5.
            assert!(cost >= 5);
            assert_eq!(Plan::from_text(&problem, &plan).map(|plan| plan.cost()), Ok(cost));
        }
        let certificate = damaged(CROSSING_CERTIFICATE, &mut numbers);
        for plan in [&plan, CROSSING_PLAN.as_bytes()] {
            if let Some(verdict) = assert_worded(check(&problem, plan, &certificate)) {
                assert_eq!(verdict, Verdict::Optimal { cost: 5 });
            }
        }
    }
}

#[test]
fn arrays_of_any_numbers_are_answered() {
    let mut numbers = Numbers(7);
    for _ in 0..3_000 {
        let (width, height) = (numbers.below(4), numbers.below(4));
        let mut free: Vec<Vec<bool>> =
            (0..height).map(|_| (0..width).map(|_| numbers.below(4) > 0).collect()).collect();
        if numbers.below(8) == 0 {
            free.push(vec![true; numbers.below(4)]);
        }
        let agents = numbers.below(4);
        let starts = cells(agents, &mut numbers);
        let goals = cells(agents + usize::from(numbers.below(16) == 0), &mut numbers);
        let Some(problem) = assert_worded(Problem::new(&free, &starts, &goals)) else {
            continue;
        };
        let paths: Vec<Vec<Cell>> =
            (0..agents + usize::from(numbers.below(8) == 0)).map(|_| cells(numbers.below(5), &mut numbers)).collect();
        assert_eq!(
            assert_worded(validate_paths(&problem, &paths)),
            Plan::new(&problem, &paths).ok().map(|plan| plan.cost()),
        );
    }
}

/// So many cells, most of them in a small grid.
fn cells(count: usize, numbers: &mut Numbers) -> Vec<Cell> {
    let mut number = || match numbers.below(32) {
        0 => u32::MAX,
        number => number as u32 % 3,
    };
    (0..count).map(|_| (number(), number())).collect()
}
