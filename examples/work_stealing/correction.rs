//! The code of the reactions of correction.lf.

use crate::program::Class;

pub fn classes() -> Vec<Class> {
    let sensor = Class::of(&["main.s"])
        .timer("t", 0, 10_000_000)
        .action("correct", 0)
        .reaction(&["t"], &[], &["value", "correct"], |run| {
            run.set("value", run.millis());
            run.schedule("correct", 0, run.millis() + 1);
        })
        .reaction(&["correct"], &[], &["value"], |run| run.set("value", run.get("correct")));
    let display = Class::of(&["main.d"]).reaction(&["value"], &[], &[], |run| run.state = run.get("value"));
    vec![sensor, display]
}
