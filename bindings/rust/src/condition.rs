//! Queries that are combined, as text.

use crate::error::Error;
use crate::key::{word, Key, Relation};
use crate::query::Query;
use std::fmt;
use std::marker::PhantomData;
use std::ops::{BitAnd, BitOr, Not};

/// A combination of queries by `&`, `|` and `!`, of which [`Condition::query`] makes a query.
///
/// The operators take queries and conditions, owned or borrowed, and can't fail. The library's limits on a query's depth and
/// length are tested once, by [`Condition::query`]. Alternatives are joined as a balanced tree, so `a | b | c ...` with n
/// queries is only log2 n deeper than the deepest of them.
///
/// ```
/// use gist::{Interval, Query, Store};
///
/// let rooms = Store::<Interval>::new()?;
/// rooms.insert_all([(9..12, 71), (14..17, 72), (20..22, 73)])?;
/// let (morning, evening) = (Query::overlaps(8..12)?, Query::overlaps(18..)?);
/// let late = Query::holds(21)?;
///
/// let query = ((&morning | &evening) & !&late).query()?;
/// let found = rooms.snapshot()?.find(&query)?;
/// assert_eq!(found.iter().map(|row| row.tag).collect::<Vec<_>>(), [71]);
/// # Ok::<(), gist::Error>(())
/// ```
#[derive(Clone, PartialEq, Eq)]
#[must_use = "a condition does nothing until a query is made of it"]
pub struct Condition<K: Key> {
    form: Form,
    /// Texts that the form's word joins. None needs brackets.
    parts: Vec<String>,
    keys: PhantomData<K>,
}

/// What joins the parts of a condition.
#[derive(Clone, Copy, PartialEq, Eq)]
enum Form {
    Single,
    All,
    Any,
}

impl<K: Key> Condition<K> {
    /// Makes the query.
    ///
    /// # Errors
    /// [`Error::QueryTooDeep`], [`Error::QueryTooLong`], [`Error::OutOfMemory`].
    pub fn query(&self) -> Result<Query<K>, Error> {
        Query::spelled(&self.text(), self.clone())
    }

    /// The relation to a key.
    pub(crate) fn by(relation: Relation, key: K) -> Condition<K> {
        Condition::single(format!("{} {}", word(relation), key.text()))
    }

    /// A text that the caller wrote. Nobody looks at what it joins, so it gets brackets.
    pub(crate) fn of_text(text: &str) -> Condition<K> {
        let joins = text.contains("and") || text.contains("or");
        Condition::single(if joins {
            format!("({text})")
        } else {
            text.to_owned()
        })
    }

    /// What any of some queries matches.
    pub(crate) fn any_of<I>(queries: I) -> Result<Condition<K>, Error>
    where
        I: IntoIterator,
        I::Item: Into<Condition<K>>,
    {
        Condition::joined(Form::Any, queries.into_iter().map(Into::into))
    }

    /// What all of some queries match.
    pub(crate) fn all_of<I>(queries: I) -> Result<Condition<K>, Error>
    where
        I: IntoIterator,
        I::Item: Into<Condition<K>>,
    {
        Condition::joined(Form::All, queries.into_iter().map(Into::into))
    }

    fn single(text: String) -> Condition<K> {
        Condition {
            form: Form::Single,
            parts: vec![text],
            keys: PhantomData,
        }
    }

    fn joined(
        form: Form,
        mut conditions: impl Iterator<Item = Condition<K>>,
    ) -> Result<Condition<K>, Error> {
        let first = conditions.next().ok_or(Error::NoQueries)?;
        Ok(conditions.fold(first, |all, it| all.with(form, it)))
    }

    /// This and another condition, joined. The parts of both stay apart if they are of the same form.
    fn with(self, form: Form, other: Condition<K>) -> Condition<K> {
        let mut parts = self.operands(form);
        parts.extend(other.operands(form));
        Condition {
            form,
            parts,
            keys: PhantomData,
        }
    }

    /// The texts of this condition as operands of a form's word.
    fn operands(self, form: Form) -> Vec<String> {
        if self.form == form {
            return self.parts;
        }
        vec![match self.form {
            // `or` binds least
            Form::Any => format!("({})", self.text()),
            _ => self.text(),
        }]
    }

    fn negated(&self) -> Condition<K> {
        Condition::single(match self.form {
            Form::Single => format!("not {}", self.text()),
            _ => format!("not ({})", self.text()),
        })
    }

    fn text(&self) -> String {
        let mut text = String::new();
        self.write(&mut text, &self.parts);
        text
    }

    /// Writes some parts, joined by halves, so that n of them are only log2 n deeper. The left half needs no brackets.
    fn write(&self, text: &mut String, parts: &[String]) {
        let (left, right) = match parts {
            [] => return,
            [part] => return text.push_str(part),
            _ => parts.split_at(parts.len() - parts.len() / 2),
        };
        self.write(text, left);
        text.push_str(if self.form == Form::All {
            " and "
        } else {
            " or "
        });
        if right.len() == 1 {
            return self.write(text, right);
        }
        text.push('(');
        self.write(text, right);
        text.push(')');
    }
}

/// As the text of a query.
impl<K: Key> fmt::Display for Condition<K> {
    fn fmt(&self, f: &mut fmt::Formatter<'_>) -> fmt::Result {
        f.write_str(&self.text())
    }
}

impl<K: Key> fmt::Debug for Condition<K> {
    fn fmt(&self, f: &mut fmt::Formatter<'_>) -> fmt::Result {
        f.debug_tuple("Condition")
            .field(&format_args!("{self}"))
            .finish()
    }
}

impl<K: Key> From<&Query<K>> for Condition<K> {
    fn from(query: &Query<K>) -> Condition<K> {
        query.condition()
    }
}

impl<K: Key> From<Query<K>> for Condition<K> {
    fn from(query: Query<K>) -> Condition<K> {
        query.condition()
    }
}

impl<K: Key> From<&Condition<K>> for Condition<K> {
    fn from(condition: &Condition<K>) -> Condition<K> {
        condition.clone()
    }
}

macro_rules! operators {
    ($($operand:ty)*) => {
        $(
            /// What both match.
            impl<K: Key, Other: Into<Condition<K>>> BitAnd<Other> for $operand {
                type Output = Condition<K>;

                fn bitand(self, other: Other) -> Condition<K> {
                    Condition::from(self).with(Form::All, other.into())
                }
            }

            /// What at least one of both matches.
            impl<K: Key, Other: Into<Condition<K>>> BitOr<Other> for $operand {
                type Output = Condition<K>;

                fn bitor(self, other: Other) -> Condition<K> {
                    Condition::from(self).with(Form::Any, other.into())
                }
            }

            /// What it doesn't match.
            impl<K: Key> Not for $operand {
                type Output = Condition<K>;

                fn not(self) -> Condition<K> {
                    Condition::from(self).negated()
                }
            }
        )*
    };
}

operators! { Query<K> &Query<K> Condition<K> &Condition<K> }

/// What of a query's text waits for its right side.
enum Pending {
    Not,
    Bracket,
    And(usize),
    Or(usize),
}

/// How deep the text of a query is: 1 for a key, and 1 more for each word around it. The text is one that the library
/// accepts, or refuses only as too deep. As the library does, it reads the text with a stack of what is pending.
pub(crate) fn depth_of(text: &str) -> usize {
    /// Ends the `not`s and `and`s before a place, and the `or` too if a query ends there.
    fn join(stack: &mut Vec<Pending>, last: usize, ends_query: bool) -> usize {
        let mut depth = last;
        while let Some(pending) = stack.pop() {
            match pending {
                Pending::Not => depth += 1,
                Pending::And(left) => depth = 1 + depth.max(left),
                Pending::Or(left) if ends_query => depth = 1 + depth.max(left),
                other => {
                    stack.push(other);
                    break;
                }
            }
        }
        depth
    }

    let (mut stack, mut last, mut rest) = (Vec::new(), 0, text);
    while let Some(first) = rest.chars().next() {
        let letters = rest
            .find(|it: char| !it.is_ascii_lowercase())
            .unwrap_or(rest.len());
        let (token, behind) = rest.split_at(letters.max(first.len_utf8()));
        rest = behind;
        match token {
            " " => {}
            "not" => stack.push(Pending::Not),
            "(" => stack.push(Pending::Bracket),
            "and" => {
                last = join(&mut stack, last, false);
                stack.push(Pending::And(last));
            }
            "or" => {
                last = join(&mut stack, last, true);
                stack.push(Pending::Or(last));
            }
            ")" => {
                last = join(&mut stack, last, true);
                stack.pop();
            }
            // a relation, and a key up to its bracket
            _ => {
                last = 1;
                rest = rest.split_once([')', '}']).map_or("", |(_, behind)| behind);
            }
        }
    }
    join(&mut stack, last, true)
}
