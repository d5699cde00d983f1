//! The seventeen rewrites, on a sheet in place.

use super::flat::{used, Flat, Sizes};
use crate::nodes::{
    arity, asked, at_least, is_literal, kind, node, opposite, value, ALL, ANY, FALSE, TRUE,
};

use crate::answers::Redex;

/// What a step changes: from `from` on all is new up to `new`; what follows stood at `old`.
#[derive(Clone, Copy)]
pub struct Zone {
    pub from: usize,
    pub old: usize,
    pub new: usize,
}

/// Does a step that applies.
pub fn apply(sheet: &mut [u16], sizes: &Sizes, redex: Redex) -> Zone {
    let flat = Flat {
        nodes: used(sheet),
        sizes,
    };
    let place = redex.place;
    let end = flat.end(place);
    match redex.rule {
        16 => return decide(sheet, place, end),
        17 => return rename(sheet, place),
        _ => (),
    }
    let at = flat.child(place, redex.i);
    match redex.rule {
        1..=3 => absorb(sheet, place, at, end),
        4..=6 => omit(sheet, place, at),
        7..=8 => unwrap(sheet, place),
        9 => spread(sheet, place, at, end, FALSE, TRUE),
        10 => spread(sheet, place, at, end, TRUE, FALSE),
        11..=12 => {
            let inner = flat.child(at, redex.j);
            lift(sheet, place, at, inner)
        }
        13 => merge(sheet, place, at),
        14 => factor(sheet, sizes, place, at, redex.j),
        _ => count_off(sheet, place, at),
    }
}

/// Sets the number of children of a node.
fn set_arity(sheet: &mut [u16], place: usize, arity: usize) {
    sheet[2 + place] = node(kind(sheet[2 + place]), arity);
}

/// Puts nodes in the stead of those from `from` to `old`; the used count and the zeros follow.
fn splice(sheet: &mut [u16], from: usize, old: usize, put: &[u16]) {
    let count = usize::from(sheet[1]);
    let new = from + put.len();
    sheet.copy_within(2 + old..2 + count, 2 + new);
    sheet[2 + from..2 + new].copy_from_slice(put);
    let now = count - old + new;
    if now < count {
        sheet[2 + now..2 + count].fill(0);
    }
    sheet[1] = now as u16;
}

/// Rules 1 to 3: only the constant child stays.
fn absorb(sheet: &mut [u16], place: usize, at: usize, end: usize) -> Zone {
    let kept = [sheet[2 + at]];
    set_arity(sheet, place, 1);
    splice(sheet, place + 1, end, &kept);
    Zone {
        from: place,
        old: end,
        new: place + 2,
    }
}

/// Rules 4 to 6: the constant child goes.
fn omit(sheet: &mut [u16], place: usize, at: usize) -> Zone {
    let k = value(sheet[2 + place]);
    set_arity(sheet, place, k - 1);
    splice(sheet, at, at + 1, &[]);
    Zone {
        from: at,
        old: at + 1,
        new: at,
    }
}

/// Rules 7 and 8: the only child replaces its parent.
fn unwrap(sheet: &mut [u16], place: usize) -> Zone {
    splice(sheet, place, place + 1, &[]);
    Zone {
        from: place,
        old: place + 1,
        new: place,
    }
}

/// Rules 9 and 10: in the other children the literal and its opposite become constants.
fn spread(sheet: &mut [u16], place: usize, at: usize, end: usize, same: u16, other: u16) -> Zone {
    let literal = sheet[2 + at];
    for q in place + 1..end {
        if q != at && sheet[2 + q] == literal {
            sheet[2 + q] = same;
        } else if sheet[2 + q] == opposite(literal) {
            sheet[2 + q] = other;
        }
    }
    Zone {
        from: place,
        old: end,
        new: end,
    }
}

/// Rules 11 and 12: the literal moves to just before the all-of that held it.
fn lift(sheet: &mut [u16], place: usize, at: usize, inner: usize) -> Zone {
    let (k, m) = (value(sheet[2 + place]), value(sheet[2 + at]));
    set_arity(sheet, place, k + 1);
    set_arity(sheet, at, m - 1);
    sheet[2 + at..=2 + inner].rotate_right(1);
    Zone {
        from: at,
        old: inner + 1,
        new: inner + 1,
    }
}

/// Rule 13: the children of the all-of replace it.
fn merge(sheet: &mut [u16], place: usize, at: usize) -> Zone {
    let (k, m) = (value(sheet[2 + place]), value(sheet[2 + at]));
    set_arity(sheet, place, k - 1 + m);
    splice(sheet, at, at + 1, &[]);
    Zone {
        from: at,
        old: at + 1,
        new: at,
    }
}

/// Rule 14: the literals, then all-of(a, any-of(the all-ofs, each without its first a)).
fn factor(sheet: &mut [u16], sizes: &Sizes, place: usize, at: usize, j: usize) -> Zone {
    let flat = Flat {
        nodes: used(sheet),
        sizes,
    };
    let end = flat.end(place);
    let a = flat.nodes[flat.child(at, j)];
    let (literals, alls): (Vec<usize>, Vec<usize>) = flat
        .children(place)
        .partition(|&child| flat.is_literal(child));
    let mut put = vec![node(ANY, literals.len() + 1)];
    put.extend(literals.iter().map(|&child| flat.nodes[child]));
    put.extend([node(ALL, 2), a, node(ANY, alls.len())]);
    for all in alls {
        let first = flat.children(all).find(|&child| flat.nodes[child] == a);
        let first = first.expect("rule 14 applies");
        put.push(node(ALL, value(flat.nodes[all]) - 1));
        put.extend(&flat.nodes[all + 1..first]);
        put.extend(&flat.nodes[first + 1..flat.end(all)]);
    }
    debug_assert!(is_literal(a));
    splice(sheet, place, end, &put);
    Zone {
        from: place,
        old: end,
        new: place + put.len(),
    }
}

/// Rule 15: the constant member goes; a true one is one of those asked for.
fn count_off(sheet: &mut [u16], place: usize, at: usize) -> Zone {
    let head = sheet[2 + place];
    let counted = usize::from(sheet[2 + at] == TRUE);
    sheet[2 + place] = at_least(asked(head).saturating_sub(counted), arity(head) - 1);
    splice(sheet, at, at + 1, &[]);
    Zone {
        from: at,
        old: at + 1,
        new: at,
    }
}

/// Rule 16: at least none is true, more than there are is false.
fn decide(sheet: &mut [u16], place: usize, end: usize) -> Zone {
    let decided = if asked(sheet[2 + place]) == 0 {
        TRUE
    } else {
        FALSE
    };
    splice(sheet, place, end, &[decided]);
    Zone {
        from: place,
        old: end,
        new: place + 1,
    }
}

/// Rule 17: at least one is an any-of, and else at least all of them is an all-of.
fn rename(sheet: &mut [u16], place: usize) -> Zone {
    let head = sheet[2 + place];
    let kind = if asked(head) == 1 { ANY } else { ALL };
    sheet[2 + place] = node(kind, arity(head));
    Zone {
        from: place,
        old: place + 1,
        new: place + 1,
    }
}
