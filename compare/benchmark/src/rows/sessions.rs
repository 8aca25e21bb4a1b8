//! A session of 65,536 bytes.

use crate::clock::Clock;
use crate::library::{self, SESSION_OUTPUT, done};
use crate::records::longest_session;
use crate::rows::Task;

pub struct Session {
    input: Vec<u8>,
}

impl Session {
    pub fn new() -> Self {
        Session { input: longest_session() }
    }
}

impl Task for Session {
    type Theirs = Vec<u8>;
    type Ours = Vec<u8>;

    fn name(&self) -> &'static str {
        "session"
    }

    fn what(&self) -> &'static str {
        "65,536 bytes of records: 500 nodes, 200 equal conditions, 50 constants, 40 orderings, then normal forms and equality questions"
    }

    fn theirs(&self, clock: &mut Clock) -> Vec<u8> {
        clock.time(|| compare::session::run(&self.input)).into()
    }

    fn ours(&self, clock: &mut Clock) -> Vec<u8> {
        let (mut output, mut answer) = (vec![0; SESSION_OUTPUT], [0]);
        clock.time(|| done(library::session(&self.input, &mut output, &mut answer)));
        output.truncate(answer[0]);
        output
    }

    fn same(&self, theirs: &Vec<u8>, ours: &Vec<u8>) -> bool {
        theirs == ours
    }
}
