//! The calls that the library makes without a test: through a controller, whose types guarantee what the others test.

use juntiqel::raw::REPORT;
use juntiqel::{Changed, Controller, Did, How, Made, Refusal, Run, Step, Stop};

use crate::script::Call;

type Report = [u32; REPORT];

/// The report, or the refusal's number; none if a controller's types do not have the call.
pub fn work(controller: &mut Controller, call: &Call) -> Option<Result<Report, u32>> {
    let answer = match call {
        Call::Sense(rows) => match rows.as_chunks() {
            (rows, []) => controller.sense(rows).map(changed),
            _ => return None,
        },
        Call::Step => controller.step().map(stepped),
        Call::Answer(n @ (0 | 1)) => controller.answer(*n == 1).map(changed),
        Call::Answer(_) => return None,
        Call::Delete(id) => controller.delete(*id).map(changed),
        Call::Run(limit) => controller.run(*limit).map(ran),
    };
    Some(answer.map_err(|Refusal { number, .. }| number))
}

fn changed(c: Changed) -> Report {
    [c.made, c.gone, 0, 0, 0, 0, 0, 0]
}

fn stepped(step: Step) -> Report {
    let [what, w, x, y, z] = match step.did {
        Did::Fired { set, rule, made } => match made {
            None => [1, set, rule, 0, 0],
            Some(Made::Atom(id)) => [1, set, rule, 1, id],
            Some(Made::Plan(id)) => [1, set, rule, 2, id],
        },
        Did::MovedOn => [2, 0, 0, 0, 0],
        Did::Executed { plan, how } => {
            let how = match how {
                How::Empty => 1,
                How::Held => 2,
                How::Done => 3,
                How::Failed => 4,
            };
            [3, plan, how, 0, 0]
        }
        Did::Waits { plan, p, a, b } => [4, plan, p, a, b],
        Did::CycleEnded => [5, 0, 0, 0, 0],
    };
    [step.made, step.gone, what, w, x, y, z, 0]
}

fn ran(run: Run) -> Report {
    let (why, number) = match run.stop {
        Stop::Phase0 => (1, 0),
        Stop::Waiting => (2, 0),
        Stop::Limit => (3, 0),
        Stop::Refused(number) => (4, number),
    };
    [run.made, run.gone, why, run.steps, number, 0, 0, 0]
}
