//! The code of the reactions of plant.lf. Each answer is a function of the state and the inputs, and that is all
//! that counts.

use crate::program::{Class, Code};

const MS: u64 = 1_000_000;

pub fn classes() -> Vec<Class> {
    vec![
        sensor(&["main.l1.s"], 10 * MS),
        sensor(&["main.l2.s"], 15 * MS),
        sensor(&["main.l3.s"], 5 * MS),
        filters(),
        fusions(),
        controls(),
        actuators(),
        panel(),
        log(),
        watch(),
    ]
}

fn sensor(instances: &'static [&'static str], period: u64) -> Class {
    let raw: Code = |run| {
        run.state += 1;
        run.set("value", run.state + run.millis() % 7 + run.shared());
    };
    let corrected: Code = |run| {
        if run.state % 2 == 0 {
            run.set("value", run.state * 10);
        }
    };
    Class::of(instances)
        .timer("t", 0, period)
        .reaction(&["startup"], &[], &[], |run| run.state = 100)
        .reaction(&["t"], &[], &["value"], raw)
        .reaction(&["t"], &[], &["value"], corrected)
}

fn filters() -> Class {
    Class::of(&["main.l1.f", "main.l2.f", "main.l3.f"])
        .action("settle", 2 * MS)
        .reaction(&["x"], &[], &["y"], |run| {
            run.state = (3 * run.state + run.get("x")) / 4;
            run.set("y", run.state);
        })
        .reaction(&["x"], &[], &["settle"], |run| {
            if run.get("x") % 3 != 0 {
                run.schedule("settle", run.state as u64 % 2 * MS, run.state);
            }
        })
        .reaction(&["settle"], &["x"], &["settled"], |run| run.set("settled", run.get("settle") + run.get("x")))
        .reaction(&["shutdown"], &[], &[], |run| run.state = 0)
}

fn fusions() -> Class {
    Class::of(&["main.u1", "main.u2"])
        .reaction(&["a"], &[], &[], |run| run.state += run.get("a"))
        .reaction(&["b"], &[], &[], |run| run.state -= run.get("b"))
        .reaction(&["c"], &[], &[], |run| run.state = run.state * 2 % 1009 + run.get("c"))
        .reaction(&["a", "b", "c"], &[], &["mean"], |run| {
            run.set("mean", (run.get("a") + run.get("b") + run.get("c") + run.state) / 4);
        })
        .reaction(&["a"], &["b", "c"], &["odd"], |run| {
            if run.is_present("b") || run.get("c") % 2 == 1 {
                run.set("odd", run.state);
            }
        })
}

fn controls() -> Class {
    Class::of(&["main.c1", "main.c2"])
        .action("again", 0)
        .reaction(&["startup"], &[], &[], |run| run.state = 5)
        .reaction(&["goal"], &[], &[], |run| run.state = run.get("goal"))
        .reaction(&["mean"], &["goal"], &["again"], |run| run.schedule("again", 0, run.state - run.get("mean")))
        .reaction(&["again"], &[], &["command"], |run| run.set("command", run.get("again") + run.state))
}

fn actuators() -> Class {
    Class::of(&["main.a1", "main.a2"])
        .reaction(&["command"], &[], &["done"], |run| {
            run.state += run.get("command") % 100;
            run.set("done", run.state);
        })
        .reaction(&["hold"], &["command"], &["done"], |run| run.set("done", run.get("command") - run.state))
        .reaction(&["shutdown"], &[], &[], |run| run.state = -1)
}

fn panel() -> Class {
    Class::of(&["main.p"])
        .timer("lamp", 2 * MS, 4 * MS)
        .action("key", 0)
        .reaction(&["startup"], &[], &[], |run| run.state = 1)
        .reaction(&["key"], &[], &["goal", "hold"], |run| {
            run.state += run.get("key");
            run.set("goal", run.state);
            if run.get("key") % 2 == 0 {
                run.set("hold", None);
            }
        })
        .reaction(&["lamp"], &["key"], &[], |run| run.state ^= 1)
}

fn log() -> Class {
    Class::of(&["main.log"])
        .reaction(&["mean1", "mean2"], &[], &[], |run| run.state += run.get("mean1") ^ run.get("mean2"))
        .reaction(&["done1", "done2"], &["mean1"], &[], |run| run.state += run.get("done1") - run.get("done2"))
        .reaction(&["settled"], &[], &[], |run| run.state ^= run.get("settled"))
        .reaction(&["odd", "settled"], &["done1"], &[], |run| run.state -= run.get("odd"))
}

fn watch() -> Class {
    Class::of(&["main.watch"])
        .timer("t", 0, 20 * MS)
        .reaction(&["t"], &["mean"], &[], |run| run.state += run.get("mean") % 2)
        .reaction(&["done"], &[], &[], |run| {
            if run.left() <= 20 {
                run.stop();
            }
        })
        .reaction(&["shutdown"], &[], &[], |run| run.state = 0)
}
