//! What the given Rust answers to small inputs on which a comment, a first
//! guess or document 01 could be taken to say something else. One line each;
//! a line that isn't as written down here is marked, and the program fails.
//!
//! A graph is written as in document 01: n is 32 bytes of value n, 1 is an
//! add, `a` marks another add, `u` an update, the rest are removes, `@m` gives
//! the member.

use oracle::reference::{Bytes, CgkaError, Reference, ADD, REMOVE, UPDATE};
use std::process::ExitCode;

const K: &str = "1 2(1) 3(1) 4(3)";

fn main() -> ExitCode {
    let mut page = Page::default();
    asked(&mut page);
    println!();
    comments(&mut page);
    println!("{} as written down, {} not", page.same, page.other);
    ExitCode::from(u8::from(page.other > 0))
}

/// The edges of the rules.
fn asked(page: &mut Page) {
    page.ask("a", "1 2a", "batch_has {1}, listed {1}", "false", |g| {
        g.batch_has_listed(&n([1]), &n([1]))
    });
    page.ask("a", "1 2a 3(1)", "batches", "[1,2,3]", |g| g.batches());
    page.ask("b", "1 2a", "batch_has {1}, listed {2}", "true", |g| {
        g.batch_has_listed(&n([1]), &n([2]))
    });
    page.ask("c", "1", "batch_has {1,9}, listed {1}", "false", |g| {
        g.batch_has_listed(&n([1, 9]), &n([1]))
    });
    page.ask("d", "1", "batch_has {}, kind 0", "false", |g| {
        g.batch_has_kind(&[], ADD)
    });
    page.ask("d", "1 2a", "batch_has {}, kind 0", "true", |g| {
        g.batch_has_kind(&[], ADD)
    });
    page.ask("d", "", "batch_has {}, kind 0", "false", |g| {
        g.batch_has_kind(&[], ADD)
    });
    page.ask("e", K, "filter {2,4}, targets {9}", "{9}", |g| {
        g.filter_in_causal_past(&n([2, 4]), &n([9]))
    });
    page.ask("e", "", "filter {}, targets {9}", "{9}", |g| {
        g.filter_in_causal_past(&[], &n([9]))
    });
    page.ask("f", "1", "filter {9}, targets {9}", "{9}", |g| {
        g.filter_in_causal_past(&n([9]), &n([9]))
    });
    page.ask("f", "1", "filter {9}, targets {}", "{}", |g| {
        g.filter_in_causal_past(&n([9]), &[])
    });
    page.ask(
        "f",
        "1",
        "filter {9}, targets {1}",
        "OperationNotFound",
        |g| g.filter_in_causal_past(&n([9]), &n([1])),
    );
    page.ask("f", "1", "filter {1,9}, targets {1}", "{1}", |g| {
        g.filter_in_causal_past(&n([1, 9]), &n([1]))
    });
    page.ask(
        "g",
        K,
        "filter {3}, targets {1,9}",
        "OperationNotFound",
        |g| g.filter_in_causal_past(&n([3]), &n([1, 9])),
    );
    page.ask("g", K, "filter {3}, targets {1,2,3}", "{1,3}", |g| {
        g.filter_in_causal_past(&n([3]), &n([1, 2, 3]))
    });
    page.ask("h", "1 2(1) 3(2,1)", "batches", "[1] [2] [3]", |g| {
        g.batches()
    });
    page.ask(
        "i",
        "1@5",
        "same operations as 1@6; graphs equal",
        "true; true",
        |g| {
            let other = graph("1@6");
            (g.same_operations(&other), *g == other)
        },
    );
    page.ask(
        "i",
        "1@5",
        "merge 1@6; add of 5 before 1; of 6",
        "true; false",
        |g| {
            g.merge(&graph("1@6"));
            (g.has_add_before(d(5), d(1)), g.has_add_before(d(6), d(1)))
        },
    );
    page.ask("j", "1 2u(1) 3u(2)", "nearest {2,3}", "{2,3}", |g| {
        g.nearest_update_ancestors(&n([2, 3]))
    });
    page.ask("k", "1", "add remove 1()", "{}", |g| {
        g.add_op(d(1), REMOVE, d(0), &[])
    });
    page.ask("l", "1 2u(1)", "add 3u(2); add 4u(2)", "{2}; {}", |g| {
        let third = g.add_op(d(3), UPDATE, d(0), &n([2]));
        (third, g.add_op(d(4), UPDATE, d(0), &n([2])))
    });
    page.ask("l", "1 2u(1) 3u(2) 4u(2)", "latest", "{3,4}", |g| {
        g.latest()
    });
    page.ask(
        "m",
        "1",
        "batch_has {9}, listed {1}",
        "OperationNotFound",
        |g| g.batch_has_listed(&n([9]), &n([1])),
    );
    page.ask("n", "", "batches", "NotInitialized", |g| g.batches());
    page.ask(
        "n",
        "1",
        "batches for heads {9}",
        "OperationNotFound",
        |g| g.batches_for_heads(&n([9])),
    );
    page.ask("n", "1", "batches for heads {}", "NotInitialized", |g| {
        g.batches_for_heads(&[])
    });
    let o = "1 2(1) 3(2) 4(2)";
    page.ask("o", o, "batch_has {3}, listed {2}", "false", |g| {
        g.batch_has_listed(&n([3]), &n([2]))
    });
    page.ask("o", o, "batch_has {3}, listed {4}", "true", |g| {
        g.batch_has_listed(&n([3]), &n([4]))
    });
    page.ask("o", o, "batch_has {3}, kind 1", "true", |g| {
        g.batch_has_kind(&n([3]), REMOVE)
    });
    page.ask("o", o, "batch_has {3}, kind 0", "false", |g| {
        g.batch_has_kind(&n([3]), ADD)
    });
}

/// Further places where the code does not do what its comment says.
fn comments(page: &mut Page) {
    // The latest updates are not one on each branch: a branch may have none
    // among them, or two.
    page.ask(
        "p",
        "1 2u(1) 3u(2) 4(2)",
        "latest; nearest {4}",
        "{3}; {2}",
        |g| (g.latest(), g.nearest_update_ancestors(&n([4]))),
    );
    page.ask(
        "p",
        "1 2u(1) 3u(1) 4(2,3)",
        "single head; latest",
        "true; {2,3}",
        |g| (g.has_single_head(), g.latest()),
    );
    // Nearest updates of one operation may stand one before the other.
    page.ask("q", "1 2u(1) 3u(2) 4(3,2)", "nearest {4}", "{2,3}", |g| {
        g.nearest_update_ancestors(&n([4]))
    });
    // Predecessors need not be immediate, and one that isn't changes batches;
    // a concurrency batch need not hold anything concurrent.
    page.ask("r", "1 2(1) 3(2) 4(3)", "batches", "[1] [2] [3] [4]", |g| {
        g.batches()
    });
    page.ask("r", "1 2(1) 3(2) 4(3,1)", "batches", "[1] [2,3] [4]", |g| {
        g.batches()
    });
    // The filter finds an unheld predecessor or not by the digest's order.
    page.ask("s", "1 2a", "filter {0,1}, targets {2}", "{}", |g| {
        g.filter_in_causal_past(&n([0, 1]), &n([2]))
    });
    page.ask(
        "s",
        "1 2a",
        "filter {1,9}, targets {2}",
        "OperationNotFound",
        |g| g.filter_in_causal_past(&n([1, 9]), &n([2])),
    );
    // The second search goes on when all that is outside has been visited.
    page.ask(
        "t",
        "1 2(1)",
        "concurrent steps {1}",
        "2 outside, 1 past",
        |g| g.concurrent_steps(&n([1]), 0),
    );
    // For a held operation, here 2, what is outside its past is not all
    // concurrent with it: 2 itself and what comes after it are outside too.
    page.ask(
        "u",
        "1 2(1) 3(2)",
        "concurrent steps {1}",
        "3 outside, 2 outside, 1 past",
        |g| g.concurrent_steps(&n([1]), 0),
    );
    // A digest under which two graphs hold different operations: a merge keeps
    // the first operation and the second depth, and joins the children.
    page.ask(
        "v",
        "1 2a",
        "merge 1 2a(1); before 2; depth 2; after 1",
        "{}; 1; {2}",
        |g| {
            g.merge(&graph("1 2a(1)"));
            (
                (g.predecessors_for(d(2)), g.depth(d(2))),
                g.children_of(d(1)),
            )
        },
    );
    page.ask("v", "1 2a", "merge 1 2a(1); batches", "[1] [2]", |g| {
        g.merge(&graph("1 2a(1)"));
        g.batches()
    });
    page.ask(
        "v",
        "2a 1(2)",
        "merge 1; before 1; batches",
        "{2}; [1,2]",
        |g| {
            g.merge(&graph("1"));
            (g.predecessors_for(d(1)), g.batches())
        },
    );
    // The same: an update is chainable with no update after it.
    page.ask(
        "w",
        "1 2u(1)",
        "merge 1 2(1); chainable 2; latest",
        "true; {}",
        |g| {
            g.merge(&graph("1 2(1)"));
            (g.is_chainable(d(2)), g.latest())
        },
    );
    // The same: equality of graphs sees some of it and some not.
    page.ask(
        "x",
        "1 2(1)",
        "equal to 1 2a(1); to 1 2u(1)",
        "true; false",
        |g| (*g == graph("1 2a(1)"), *g == graph("1 2u(1)")),
    );
    page.ask(
        "x",
        "1 2(1) 3(2)",
        "same operations as 1 2(1) 3(2,1); equal",
        "true; false",
        |g| {
            let other = graph("1 2(1) 3(2,1)");
            (g.same_operations(&other), *g == other)
        },
    );
}

/// Counts the lines that are as written down, and the others.
#[derive(Default)]
struct Page {
    same: u32,
    other: u32,
}

impl Page {
    /// Puts one question to a graph and prints the answer.
    fn ask<T: Show>(
        &mut self,
        name: &str,
        text: &str,
        question: &str,
        expected: &str,
        answer: impl FnOnce(&mut Reference) -> T,
    ) {
        let shown = answer(&mut graph(text)).show();
        let empty = if text.is_empty() { "(empty)" } else { text };
        print!("{name}  {empty}: {question}: {shown}");
        if shown == expected {
            self.same += 1;
            println!();
        } else {
            self.other += 1;
            println!("   NOT AS WRITTEN DOWN: {expected}");
        }
    }
}

/// The digest, or member, that a number stands for.
fn d(number: u8) -> Bytes {
    [number; 32]
}

fn n<const N: usize>(numbers: [u8; N]) -> [Bytes; N] {
    numbers.map(d)
}

/// The graph of a text.
fn graph(text: &str) -> Reference {
    let mut graph = Reference::new();
    for op in text.split_whitespace() {
        let (op, before) = op.trim_end_matches(')').split_once('(').unwrap_or((op, ""));
        let (op, member) = op.split_once('@').unwrap_or((op, "0"));
        let kind = match op {
            "1" => ADD,
            _ if op.ends_with('a') => ADD,
            _ if op.ends_with('u') => UPDATE,
            _ => REMOVE,
        };
        let number = |text: &str| d(text.parse().expect("a number"));
        let predecessors: Vec<Bytes> = before.split_terminator(',').map(number).collect();
        let digest = number(op.trim_end_matches(['a', 'u']));
        graph
            .add_op(digest, kind, number(member), &predecessors)
            .expect("a graph");
    }
    graph
}

/// An answer as text.
trait Show {
    fn show(&self) -> String;
}

impl Show for bool {
    fn show(&self) -> String {
        self.to_string()
    }
}

impl Show for u64 {
    fn show(&self) -> String {
        self.to_string()
    }
}

impl Show for Vec<Bytes> {
    fn show(&self) -> String {
        format!("{{{}}}", numbers(self))
    }
}

impl Show for Vec<Vec<Bytes>> {
    fn show(&self) -> String {
        let batches: Vec<String> = self.iter().map(|b| format!("[{}]", numbers(b))).collect();
        batches.join(" ")
    }
}

impl Show for Vec<(Bytes, bool)> {
    fn show(&self) -> String {
        let steps: Vec<String> = self
            .iter()
            .map(|(digest, past)| {
                format!("{} {}", digest[0], if *past { "past" } else { "outside" })
            })
            .collect();
        steps.join(", ")
    }
}

impl<T: Show> Show for Option<T> {
    fn show(&self) -> String {
        self.as_ref().map_or("none".to_string(), Show::show)
    }
}

impl<T: Show> Show for Result<T, CgkaError> {
    fn show(&self) -> String {
        match self {
            Ok(answer) => answer.show(),
            Err(error) => format!("{error:?}"),
        }
    }
}

impl<A: Show, B: Show> Show for (A, B) {
    fn show(&self) -> String {
        format!("{}; {}", self.0.show(), self.1.show())
    }
}

/// Digests as the numbers that they stand for.
fn numbers(list: &[Bytes]) -> String {
    let numbers: Vec<String> = list.iter().map(|digest| digest[0].to_string()).collect();
    numbers.join(",")
}
