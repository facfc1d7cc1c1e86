//! Replay of values: a list of occurrences on a route, with any functions.

use crate::net::{self, Marking};
use crate::sheet::Route;

/// What a variable holds: a value, or a blank.
pub type Held = Option<u64>;

/// An occurrence's function for a variable, from the list of what it read.
pub type Function<'a> = &'a dyn Fn(usize, u64, &[Held]) -> u64;

/// Where a replay ends.
#[derive(Clone, Debug, PartialEq, Eq)]
pub struct End {
    /// How many occurrences were taken: all, or those before the one that
    /// the route has no step for or that can't fire.
    pub taken: usize,
    pub marking: Marking,
    pub variables: [Held; 32],
    /// The cloth occurrences, those whose step on this route is marked, in the
    /// order in which they fired.
    pub cloth: Vec<usize>,
}

/// Replays the list on the route, from its start with all variables blank.
pub fn replay(route: &Route, names: &[u64], list: &[usize], function: Function) -> End {
    let mut end = End {
        taken: 0,
        marking: net::start(route),
        variables: [None; 32],
        cloth: Vec::new(),
    };
    for &occurrence in list {
        let Some(step) = route.step(names[occurrence - 1]) else {
            break;
        };
        let Ok(next) = net::fire(&end.marking, step) else {
            break;
        };
        let held = |variable: &u64| end.variables[*variable as usize];
        let read: Vec<Held> = step.reads.iter().map(held).collect();
        for &variable in &step.writes {
            end.variables[variable as usize] = Some(function(occurrence, variable, &read));
        }
        if step.cloth {
            end.cloth.push(occurrence);
        }
        end.marking = next;
        end.taken += 1;
    }
    end
}
