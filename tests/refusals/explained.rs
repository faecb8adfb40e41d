//! Explain: what it turns down, and what it answers beside the step.

use crate::text::Call;
use crate::trials::{Desk, Trials};

// The refusals of explain are those of the step, and clear is answered exactly where the step is ok.
pub fn of_explain(t: &mut Trials) {
    let mut d = Desk::fresh([2, 2, 1, 2]);
    t.refused("explain 3, run", &mut d, Call::Explain(2, 0, 0), 3);
    t.refused("explain 3, job", &mut d, Call::Explain(0, 8, 0), 3);
    t.refused("explain 3, both", &mut d, Call::Explain(u32::MAX, u32::MAX, 0), 3);
    t.refused("explain 4, free", &mut d, Call::Explain(0, 7, 0), 4);
    d.call(&Call::Open(0, vec![0, 1, 0, 0, 2, 1]));
    t.refused("explain 3, no such job", &mut d, Call::Explain(0, 2, 0), 3);
    t.refused("explain 6, waits", &mut d, Call::Explain(0, 1, 0), 6);
    t.refused("explain 7", &mut d, Call::Explain(0, 0, 0), 7);
    d.call(&Call::Open(1, vec![0, 0, 0]));
    t.told("explain, nothing read", &mut d, Call::Explain(1, 0, 0), &[3]);
    t.ok("step, nothing read", &mut d, Call::Step(1, 0, 0), &[0, 0, 0]);
    d.call(&Call::Issue(1, 0, 1));
    t.told("explain, from the master", &mut d, Call::Explain(0, 0, 0), &[3]);
    t.ok("step, from the master", &mut d, Call::Step(0, 0, 0), &[0, 0, 1]);
    t.refused("explain 6, done", &mut d, Call::Explain(0, 0, 0), 6);
    t.refused("explain 7, the next", &mut d, Call::Explain(0, 1, 0), 7);
    d.call(&Call::Open(1, vec![0, 0, 0]));
    d.call(&Call::Step(1, 0, 0));
    d.call(&Call::Issue(1, 0, 3));
    t.told("explain, a path", &mut d, Call::Explain(0, 1, 0), &[4, 1, 0]);
    t.check("step, broken", d.call(&Call::Step(0, 1, 0)) == [1, 1]);
    t.refused("explain 4, broken", &mut d, Call::Explain(0, 1, 0), 4);
}
