//! Queries that are combined by `any_of`, `all_of`, `&`, `|` and `!`, for each class of keys, and why a query is refused.

use gist::{BoxKey, Condition, Error, Interval, Key, Query, Relation, Set, Snapshot, Store};
use std::collections::BTreeSet;

type Tried = Result<(), Error>;

const ROWS: u64 = 40;

/// Numbers that look random, and are the same in each run (xorshift64).
struct Dice(u64);

impl Dice {
    fn below(&mut self, end: usize) -> usize {
        self.0 ^= self.0 << 13;
        self.0 ^= self.0 >> 7;
        self.0 ^= self.0 << 17;
        (self.0 % end as u64) as usize
    }
}

/// The rows that match.
fn rows<K: Key>(now: &Snapshot<K>, query: &Query<K>) -> Result<BTreeSet<u64>, Error> {
    Ok(now.find(query)?.iter().map(|row| row.number).collect())
}

fn combined<K: Key>(key_of: impl Fn(i32) -> K) -> Tried {
    let store = Store::<K>::new()?;
    store.insert_all((0..ROWS).map(|n| (key_of(n as i32), n)))?;
    let now = store.snapshot()?;
    let all: BTreeSet<u64> = (1..=ROWS).collect();
    let everything = Query::<K>::everything()?;
    assert_eq!(rows(&now, &everything)?, all);
    assert!(rows(&now, &(!&everything).query()?)?.is_empty());

    // forty alternatives, which `a or b or c` would make 40 deep
    let each = (0..ROWS)
        .map(|n| Query::same(key_of(n as i32)))
        .collect::<Result<Vec<Query<K>>, _>>()?;
    assert_eq!(rows(&now, &Query::any_of(&each)?)?, all);
    let chained = each.iter().fold(!&everything, |chain, one| chain | one);
    assert_eq!(rows(&now, &chained.query()?)?, all);
    let first: BTreeSet<u64> = [1].into();
    let others = || each[1..].iter().map(|one| !one);
    assert_eq!(rows(&now, &Query::all_of(others())?)?, first);
    let chained = others().fold(Condition::from(&everything), |chain, one| chain & one);
    assert_eq!(rows(&now, &chained.query()?)?, first);
    assert_eq!(rows(&now, &Query::any_of([&each[0]])?)?, first);
    assert_eq!(
        rows(&now, &Query::all_of(each[..1].iter().cloned())?)?,
        first
    );
    assert!(rows(&now, &Query::all_of(&each[..2])?)?.is_empty());

    // a text is an operand, too, whatever it joins
    let text = format!(
        "{} or {}",
        Condition::from(&each[0]),
        Condition::from(&each[1])
    );
    let text = Query::<K>::new(&text)?;
    let is = |condition: Condition<K>, wanted: &[u64]| {
        assert_eq!(
            rows(&now, &condition.query()?)?,
            wanted.iter().copied().collect(),
            "{condition:?}"
        );
        Ok::<_, Error>(())
    };
    is(&text & &each[1], &[2])?;
    is(&each[1] & text.clone(), &[2])?;
    is(&text | &each[2], &[1, 2, 3])?;
    is(!!&text, &[1, 2])?;
    is(!(!&text | &each[0]), &[2])?;
    is((&text).into(), &[1, 2])?;

    random_trees(&now, &all, key_of)
}

/// Random trees mean what their parts mean, and leave these as they are.
fn random_trees<K: Key>(
    now: &Snapshot<K>,
    all: &BTreeSet<u64>,
    key_of: impl Fn(i32) -> K,
) -> Tried {
    let mut dice = Dice(7);
    let mut known = Vec::new();
    for n in (0..ROWS as i32).step_by(4) {
        for relation in [
            Relation::Overlaps,
            Relation::Within,
            Relation::Holds,
            Relation::Same,
        ] {
            let query = Query::by(relation, key_of(n))?;
            let found = rows(now, &query)?;
            known.push((query, found));
        }
    }
    let mut too_long = 0;
    for _ in 0..600 {
        let (left, left_rows) = &known[dice.below(known.len())];
        let (right, right_rows) = &known[dice.below(known.len())];
        let (condition, found) = match dice.below(4) {
            0 => (left | right, left_rows | right_rows),
            1 => (left & right, left_rows & right_rows),
            2 => (!left, all - left_rows),
            _ => (
                !left | (left & right) | !!right,
                &(all - left_rows) | right_rows,
            ),
        };
        match condition.query() {
            Ok(query) => known.push((query, found)),
            Err(Error::QueryTooLong { length }) => {
                assert!(length > 4_096);
                too_long += 1;
            }
            Err(other) => return Err(other),
        }
    }
    assert!(known.len() > 300, "{too_long} were too long");
    for (query, found) in &known {
        assert_eq!(&rows(now, query)?, found);
    }
    Ok(())
}

#[test]
fn combined_with_intervals() -> Tried {
    combined(|n| Interval::from(i64::from(n)..=i64::from(n + n % 7)))
}

#[test]
fn combined_with_boxes() -> Tried {
    combined(|n| BoxKey::from((n - 20..=n - 20 + n % 7, n % 3..=2 + n % 5)))
}

#[test]
fn combined_with_sets() -> Tried {
    combined(|n| Set::from([n as u8, 127 - (n % 7) as u8, (n / 3) as u8]))
}

fn why(text: &str) -> Option<Error> {
    Query::<Interval>::new(text).err()
}

/// The text of a random query, with some brackets that it doesn't need, and its depth.
fn random_text(dice: &mut Dice, most: usize) -> (String, usize) {
    fn bracketed(dice: &mut Dice, text: &str) -> String {
        match dice.below(2) {
            0 => format!("({text})"),
            _ => format!("( ({text} ))"),
        }
    }
    if most <= 1 || dice.below(12) == 0 {
        return (
            ["same (1 2)", "overlaps ( -3  4 )"][dice.below(2)].to_owned(),
            1,
        );
    }
    let (deep, depth) = random_text(dice, most - 1);
    let deep = bracketed(dice, &deep);
    if dice.below(3) == 0 {
        return (format!("not {deep}"), depth + 1);
    }
    let shallow = 1 + dice.below(3);
    let (other, other_depth) = random_text(dice, shallow);
    let other = bracketed(dice, &other);
    let word = ["and", "or"][dice.below(2)];
    let text = match dice.below(2) {
        0 => format!("{deep} {word} {other}"),
        _ => format!("{other} {word} {deep}"),
    };
    (text, 1 + depth.max(other_depth))
}

#[test]
fn a_query_is_too_deep_exactly_above_32() {
    let mut dice = Dice(3);
    let (mut deep, mut good) = (0, 0);
    for _ in 0..3_000 {
        let most = 20 + dice.below(30);
        let (text, depth) = random_text(&mut dice, most);
        if text.len() > 4_096 {
            continue;
        }
        let expected = (depth > 32).then_some(Error::QueryTooDeep { depth });
        assert_eq!(why(&text), expected, "{text}");
        deep += usize::from(depth > 32);
        good += usize::from(depth <= 32);
    }
    assert!(deep > 100 && good > 100, "{deep} and {good}");
}

#[test]
fn a_query_that_is_too_deep_or_too_long_says_so() -> Tried {
    let repeated = |text: &str, between: &str, n: usize| vec![text; n].join(between);
    for word in [" or ", " and "] {
        assert_eq!(why(&repeated("same (1 2)", word, 32)), None);
        let deep = Some(Error::QueryTooDeep { depth: 41 });
        assert_eq!(
            why(&format!("  {}", repeated("same (1 2)", word, 41))),
            deep
        );
    }
    assert_eq!(why(&format!("{}same (1 2)", "not ".repeat(31))), None);
    let deep = Some(Error::QueryTooDeep { depth: 33 });
    assert_eq!(why(&format!("{}same (1 2)", "not ".repeat(32))), deep);
    // `and` binds closer than `or`, and `not` closer than both
    let text = |n| repeated("not same (1 2) and same (1 2)", " or ", n);
    assert_eq!(why(&text(30)), None);
    assert_eq!(why(&text(32)), Some(Error::QueryTooDeep { depth: 34 }));
    // another fault of a deep text is reported where it is
    let text = repeated("same (1 2)", " or ", 40) + " or";
    assert_eq!(why(&text), Some(Error::QueryText { at: 559 }));
    assert_eq!(why("nothing"), Some(Error::QueryText { at: 0 }));
    assert_eq!(why("  "), Some(Error::QueryText { at: 2 }));
    assert_eq!(why("Überlappt"), Some(Error::QueryText { at: 0 }));
    let text = format!("same (1 2){}", " ".repeat(4_191));
    assert_eq!(why(&text), Some(Error::QueryTooLong { length: 4_201 }));

    let mut condition = Query::same(1)? | Query::<Interval>::same(5)?;
    for _ in 2..32 {
        condition = !condition;
    }
    condition.query()?;
    let refused = (!&condition).query().err();
    assert_eq!(refused, deep);
    let text = "query is 33 deep; at most 32: combine alternatives with any_of or all_of, or split it into several queries";
    assert_eq!(refused.map(|it| it.to_string()).as_deref(), Some(text));
    assert_eq!((condition & Query::same(1)?).query().err(), deep);

    let many = (0..300)
        .map(Query::same)
        .collect::<Result<Vec<Query<Interval>>, _>>()?;
    let refused = Query::any_of(&many).err();
    assert!(matches!(
        refused,
        Some(Error::QueryTooLong { length: 4_097.. })
    ));
    let none: [&Query<Interval>; 0] = [];
    assert_eq!(Query::any_of(none).err(), Some(Error::NoQueries));
    assert_eq!(Query::all_of(none).err(), Some(Error::NoQueries));
    Ok(())
}

#[test]
fn conditions_are_shown_as_texts() -> Tried {
    let query: Query<Set> = "holds {1} or holds {2}".parse()?;
    let condition = !(&query & Query::within([3, 64])?);
    let text = "not ((holds {1} or holds {2}) and within {3 64})";
    assert_eq!(condition.to_string(), text);
    assert_eq!(format!("{condition:?}"), format!("Condition({text})"));
    assert_eq!(condition, condition.clone());
    let five = (0..5)
        .map(|n| Query::same([n]))
        .collect::<Result<Vec<Query<Set>>, _>>()?;
    let any = five[1..]
        .iter()
        .fold(Condition::from(&five[0]), |any, one| any | one);
    let text = "same {0} or same {1} or same {2} or (same {3} or same {4})";
    assert_eq!(any.to_string(), text);
    Ok(())
}
