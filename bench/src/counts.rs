//! How many passes the judgement takes, and how many rows the classes compare: the proved loops
//! written once more with counters. Each count is printed only if these loops come to the answer of
//! the proved call.

use fadurinko_second::table::{self, Child, Initial, Rule, Table};

use crate::opened::Opened;
use crate::proved::{self, LONGEST};
use crate::shapes;

/// A summary as the proved judgement keeps it: letters 0 for none, one more than the letter, 257
/// for several; and 1024 more with the empty word.
type Ends = u16;

fn letters_joined(a: Ends, b: Ends) -> Ends {
    match (a, b) {
        (0, _) => b,
        (_, 0) => a,
        _ if a == b => a,
        _ => 257,
    }
}

fn joined(x: Ends, y: Ends) -> Ends {
    letters_joined(x % 1024, y % 1024) + if x >= 1024 || y >= 1024 { 1024 } else { 0 }
}

fn in_front(x: Ends, y: Ends) -> Ends {
    match (x, y) {
        (0, _) | (_, 0) => 0,
        _ if x < 1024 => x,
        _ => letters_joined(x % 1024, y % 1024) + if y < 1024 { 0 } else { 1024 },
    }
}

#[derive(Clone, Copy)]
enum Side {
    Left,
    Right,
}

impl Side {
    fn next_to(self, x: Ends, y: Ends) -> Ends {
        match self {
            Side::Left => in_front(x, y),
            Side::Right => in_front(y, x),
        }
    }

    fn alone(self, word: &[u8]) -> Ends {
        let letter = match self {
            Side::Left => word.first(),
            Side::Right => word.last(),
        };
        letter.map_or(1024, |&letter| Ends::from(letter) + 1)
    }

    fn value(self, rule: &Rule, values: &[Ends]) -> Ends {
        rule.children
            .iter()
            .fold(self.alone(&rule.before), |x, child| {
                let y = self.next_to(x, values[usize::from(child.state)]);
                self.next_to(y, self.alone(&child.after))
            })
    }
}

/// The states in the order in which they are met from the initial one.
fn order(table: &Table) -> Vec<usize> {
    let mut order = vec![usize::from(table.initial.state)];
    let mut taken = 0;
    while taken < order.len() {
        let rules = table.rules_of(order[taken] as u8);
        for child in rules.iter().flat_map(|rule| &rule.children) {
            if !order.contains(&usize::from(child.state)) {
                order.push(usize::from(child.state));
            }
        }
        taken += 1;
    }
    order
}

/// What passes over the states leave, and how many there were and how many rules they looked into.
struct Passes {
    values: Vec<Ends>,
    count: usize,
    rules: usize,
}

/// Goes over the states, from the one that is met last on, and over the rules of each from the last
/// one on, until nothing changes. A state is passed over once `finished` says so of its summary.
fn passes(
    table: &Table,
    order: &[usize],
    values: Vec<Ends>,
    finished: impl Fn(Ends) -> bool,
    value: impl Fn(&Rule, &[Ends]) -> Option<Ends>,
) -> Passes {
    let mut passes = Passes {
        values,
        count: 0,
        rules: 0,
    };
    loop {
        let mut changed = false;
        for &state in order.iter().rev() {
            for rule in table.rules_of(state as u8).iter().rev() {
                let old = passes.values[state];
                if finished(old) {
                    continue;
                }
                if let Some(found) = value(rule, &passes.values) {
                    passes.rules += 1;
                    let new = joined(old, found);
                    changed |= new != old;
                    passes.values[state] = new;
                }
            }
        }
        passes.count += 1;
        if !changed {
            return passes;
        }
    }
}

/// The states with the empty word: rules that write a letter are not looked into.
fn blanks(table: &Table, order: &[usize]) -> Passes {
    let silent = |rule: &Rule| {
        let mut words = rule.children.iter().map(|child| &child.after);
        rule.before.is_empty() && words.all(|word| word.is_empty())
    };
    passes(
        table,
        order,
        vec![0; usize::from(table.states)],
        |x| x != 0,
        |rule, values| {
            let all = |rule: &Rule| {
                let mut children = rule.children.iter();
                children.all(|child| values[usize::from(child.state)] != 0)
            };
            silent(rule).then(|| if all(rule) { 1024 } else { 0 })
        },
    )
}

/// The ends at a side, from what is known of the empty word on.
fn ends(side: Side, table: &Table, order: &[usize], blanks: &[Ends]) -> Passes {
    passes(
        table,
        order,
        blanks.to_vec(),
        |x| x % 1024 >= 257,
        |rule, values| Some(side.value(rule, values)),
    )
}

fn stuck(x: Ends, word: &[u8]) -> bool {
    word.first()
        .is_some_and(|&letter| x >= 1024 && (x % 1024 == 0 || x % 1024 == Ends::from(letter) + 1))
}

fn late(rule: &Rule, left: &[Ends]) -> bool {
    rule.children
        .iter()
        .any(|child| stuck(left[usize::from(child.state)], &child.after))
}

/// The verdict, and the passes for the empty word, the left ends and the right ends.
fn judged(table: &Table) -> (Result<(), (u8, usize)>, [Passes; 3]) {
    let order = order(table);
    let blanks = blanks(table, &order);
    let lefts = ends(Side::Left, table, &order, &blanks.values);
    let rights = ends(Side::Right, table, &order, &blanks.values);
    let (left, right) = (&lefts.values, &rights.values);
    let initial = stuck(left[usize::from(table.initial.state)], &table.initial.after);
    let faults = [
        (0..left.len()).find(|state| !order.contains(state)),
        left.iter().position(|&x| x == 0),
        left.iter().position(|&x| x < 257),
        right.iter().position(|&x| x < 257),
        initial.then_some(0),
        table.rules.iter().position(|rule| late(rule, left)),
    ];
    let fault = (13..)
        .zip(faults)
        .find_map(|(number, place)| place.map(|place| (number, place)));
    (fault.map_or(Ok(()), Err), [blanks, lefts, rights])
}

fn checked_passes(table: &Table) -> [Passes; 3] {
    let (verdict, counts) = judged(table);
    let mut opened = Opened::blank();
    assert_eq!(proved::open(&shapes::text(table), &mut opened), Ok(()));
    assert_eq!(proved::judge_opened(&opened), verdict);
    counts
}

/// What the rounds of the classes did.
#[derive(Default)]
struct Work {
    rounds: usize,
    rows: usize,
    rules: usize,
}

/// Whether two rules for one symbol are the same up to the classes.
fn same_rules(rep: &[usize], a: &Rule, b: &Rule) -> bool {
    let mut children = a.children.iter().zip(&b.children);
    a.before == b.before
        && children.all(|(x, y)| {
            rep[usize::from(x.state)] == rep[usize::from(y.state)] && x.after == y.after
        })
}

/// Whether the rows of two states are the same up to the classes: along the rules of one, each beside
/// the other's for its symbol, and then by how many they are.
fn same_rows(table: &Table, rep: &[usize], q: usize, r: usize, work: &mut Work) -> bool {
    work.rows += 1;
    let (mine, others) = (table.rules_of(q as u8), table.rules_of(r as u8));
    mine.iter().all(|a| {
        work.rules += 1;
        let other = others.iter().find(|b| b.symbol == a.symbol);
        other.is_some_and(|b| same_rules(rep, a, b))
    }) && mine.len() == others.len()
}

/// The classes by rounds: a row is compared only with those of states that stand for their class in
/// the new round.
fn classes(table: &Table) -> (Vec<usize>, Work) {
    let mut rep = vec![0; usize::from(table.states)];
    let mut work = Work::default();
    loop {
        let mut next: Vec<usize> = Vec::with_capacity(rep.len());
        for q in 0..rep.len() {
            let leader = (rep[q]..q).find(|&r| {
                next[r] == r && rep[q] == rep[r] && same_rows(table, &rep, q, r, &mut work)
            });
            next.push(leader.unwrap_or(q));
        }
        work.rounds += 1;
        if next == rep {
            return (rep, work);
        }
        rep = next;
    }
}

/// The form's text by these classes: states in the order of the first visit.
fn form_by(table: &Table, rep: &[usize]) -> Vec<u8> {
    let mut order = vec![table.initial.state];
    let mut taken = 0;
    while taken < order.len() {
        for child in table
            .rules_of(order[taken])
            .iter()
            .flat_map(|rule| &rule.children)
        {
            if order
                .iter()
                .all(|&met| rep[usize::from(met)] != rep[usize::from(child.state)])
            {
                order.push(child.state);
            }
        }
        taken += 1;
    }
    let number = |state: u8| {
        order
            .iter()
            .position(|&met| rep[usize::from(met)] == rep[usize::from(state)])
            .expect("all are met") as u8
    };
    let renamed = |rule: &Rule| {
        let children = rule.children.iter().map(|child| Child {
            state: number(child.state),
            after: child.after.clone(),
        });
        Rule {
            state: number(rule.state),
            children: children.collect(),
            ..rule.clone()
        }
    };
    let rules = order
        .iter()
        .flat_map(|&state| table.rules_of(state))
        .map(renamed)
        .collect();
    let initial = Initial {
        state: 0,
        ..table.initial.clone()
    };
    table::write(&Table {
        arities: table.arities.clone(),
        states: order.len() as u8,
        initial,
        rules,
    })
}

fn checked_rows(table: &Table) -> Work {
    let (rep, work) = classes(table);
    let form = form_by(table, &rep);
    let mut room = vec![0; LONGEST];
    assert_eq!(
        proved::form(&shapes::text(table), &mut room),
        Ok(form.len())
    );
    assert!(room[..form.len()] == form);
    work
}

/// Two tables, in the form that the page of speed takes over.
pub fn print() {
    println!("| 64 states, 512 rules | Passes: empty word | Left ends | Right ends | Rules looked into, all told |");
    println!("|---|---|---|---|---|");
    for shaped in shapes::all()
        .iter()
        .filter(|shaped| shaped.table.states == 64)
    {
        let passes = checked_passes(&shaped.table);
        let [blanks, lefts, rights] = passes.each_ref().map(|passes| passes.count);
        let rules: usize = passes.iter().map(|passes| passes.rules).sum();
        println!(
            "| {} | {blanks} | {lefts} | {rights} | {rules} |",
            shaped.shape
        );
    }
    println!();
    println!("| Table | Rounds | Row comparisons | Over states squared | Rule comparisons |");
    println!("|---|---|---|---|---|");
    for shaped in shapes::all()
        .iter()
        .filter(|shaped| shaped.table.states == 64)
    {
        let work = checked_rows(&shaped.table);
        let share = work.rows as f64 / f64::from(shaped.table.states).powi(2);
        println!(
            "| {shaped} | {} | {} | {share:.2} | {} |",
            work.rounds, work.rows, work.rules
        );
    }
}
