// The five sorts (01, "Sorts"): what has a sort, and what may have an instance of it.
use super::term::{SUM, Term};

#[derive(Clone, Copy, Debug, PartialEq, Eq)]
pub enum Sort {
    Pub,
    Fresh,
    Msg,
    TamNat,
    Node,
}

impl Sort {
    pub const ALL: [Sort; 5] = [Sort::Pub, Sort::Fresh, Sort::Msg, Sort::TamNat, Sort::Node];

    pub fn name(self) -> &'static str {
        ["Pub", "Fresh", "Msg", "TamNat", "Node"][self as usize]
    }
}

const MEET: [[bool; 5]; 5] = [
    [true, false, true, false, false],
    [false, true, true, false, false],
    [true, true, true, true, false],
    [false, false, true, true, false],
    [false, false, false, false, true],
];

/// The sort that a variable's text names.
pub fn sort_of(variable: &str) -> Option<Sort> {
    let (_, name) = variable.split_once(':')?;
    Sort::ALL.into_iter().find(|sort| sort.name() == name)
}

pub fn natural(term: &Term) -> bool {
    match term {
        Term::Variable(name) => sort_of(name) == Some(Sort::TamNat),
        Term::Atom(letter, _) => *letter == 't',
        Term::Apply(name, children) => match &**name {
            "tamXCtone" => true,
            SUM => children.iter().all(natural),
            _ => false,
        },
    }
}

pub fn message(term: &Term) -> bool {
    match term {
        Term::Variable(name) => sort_of(name).is_some_and(|sort| sort != Sort::Node),
        Term::Atom(letter, _) => *letter != 'n',
        Term::Apply(name, children) => match &**name {
            SUM => natural(term),
            "list" | "cons" | "nil" => false,
            _ => children.iter().all(message),
        },
    }
}

fn plain(sort: Sort, of: char, term: &Term) -> bool {
    match term {
        Term::Variable(name) => sort_of(name) == Some(sort),
        Term::Atom(letter, _) => *letter == of,
        Term::Apply(..) => false,
    }
}

pub fn has_sort(sort: Sort, term: &Term) -> bool {
    match sort {
        Sort::Pub => plain(sort, 'p', term),
        Sort::Fresh => plain(sort, 'f', term),
        Sort::Node => plain(sort, 'n', term),
        Sort::Msg => message(term),
        Sort::TamNat => natural(term),
    }
}

/// Whether some instance may have the sort.
pub fn refinable(sort: Sort, term: &Term) -> bool {
    let all = |of: Sort, children: &[Term]| children.iter().all(|child| refinable(of, child));
    match term {
        Term::Variable(name) => sort_of(name).is_some_and(|s| MEET[s as usize][sort as usize]),
        Term::Atom(..) => has_sort(sort, term),
        Term::Apply(name, children) => match &**name {
            SUM => matches!(sort, Sort::TamNat | Sort::Msg) && all(Sort::TamNat, children),
            "list" | "cons" | "nil" => false,
            _ if children.is_empty() => has_sort(sort, term),
            _ => sort == Sort::Msg && all(Sort::Msg, children),
        },
    }
}

/// One side is always natural and the other can never be.
pub fn never_equal(left: &Term, right: &Term) -> bool {
    natural(left) && !refinable(Sort::TamNat, right)
        || natural(right) && !refinable(Sort::TamNat, left)
}
