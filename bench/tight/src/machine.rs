//! The calls: the test of refusal 1, who may call what when, and the work.

use crate::answer::{Answer, Did, Report, Stop};
use crate::config::{Config, FAILED, STEPPED};
use crate::load::load;
use crate::program::{Index, Program, Row};
use crate::work::Core;

/// Scratch places of the interpreter, and how it works.
pub struct Machine {
    index: Box<Index>,
    spare: Program,
    core: Core,
    trust: bool,
}

/// How a machine works.
#[derive(Clone, Copy, Default)]
pub struct Options {
    /// Without the test of refusal 1: the index kept from load is right and the configuration well formed.
    pub trust: bool,
    /// The better search: backjumping, and filters of the keys alive in a long search.
    pub plus: bool,
}

impl Machine {
    pub fn new(Options { trust, plus }: Options) -> Machine {
        Machine {
            index: Box::default(),
            spare: Program::default(),
            core: Core::new(plus),
            trust,
        }
    }

    /// Refused: (number, line); program and configuration are left as they were.
    pub fn load(
        &mut self,
        text: &[u8],
        program: &mut Program,
        config: &mut Config,
    ) -> Result<(), (u8, u32)> {
        load(text, &mut self.spare.rows, &mut self.spare.index, config)?;
        std::mem::swap(&mut self.spare, program);
        Ok(())
    }

    /// The test of refusal 1, then the work.
    #[inline]
    fn call(
        &mut self,
        program: &Program,
        config: &mut Config,
        work: impl FnOnce(&mut Core, &[Row], &Index, &mut Config) -> Answer,
    ) -> Answer {
        if self.trust {
            return work(&mut self.core, &program.rows, &program.index, config);
        }
        if !self.index.of_rows(&program.rows)
            || !config.well_formed(&program.rows, &self.index, &mut self.core.dead)
        {
            return Err(1);
        }
        work(&mut self.core, &program.rows, &self.index, config)
    }

    pub fn sense(&mut self, program: &Program, config: &mut Config, given: &[[u32; 4]]) -> Answer {
        self.call(program, config, |core, _, index, config| {
            core.sense(index, config, given)
        })
    }

    pub fn step(&mut self, program: &Program, config: &mut Config) -> Answer {
        self.call(program, config, |core, rows, index, config| {
            if config.phase == 0 || config.waiting != 0 {
                return Err(6);
            }
            core.one_step(rows, index, config)
        })
    }

    pub fn run(&mut self, program: &Program, config: &mut Config, limit: u32) -> Answer {
        self.call(program, config, |core, rows, index, config| {
            if config.phase == 0 || config.waiting != 0 {
                return Err(6);
            }
            if !(1..=10000).contains(&limit) {
                return Err(7);
            }
            let (mut steps, mut made, mut gone) = (0u32, 0, 0);
            let stop = loop {
                match core.one_step(rows, index, config) {
                    Err(no) => break Stop::Refused(no),
                    Ok(report) => {
                        steps += 1;
                        made += report.made;
                        gone += report.gone;
                    }
                }
                if config.phase == 0 {
                    break Stop::Phase0;
                }
                if config.waiting != 0 {
                    break Stop::Waiting;
                }
                if steps == limit {
                    break Stop::Limit;
                }
            };
            Ok(Report {
                did: Did::Ran(steps, stop),
                made,
                gone,
            })
        })
    }

    pub fn answer(&mut self, program: &Program, config: &mut Config, given: u32) -> Answer {
        self.call(program, config, |_, _, _, config| {
            if config.waiting == 0 {
                return Err(6);
            }
            if given > 1 {
                return Err(7);
            }
            let at = config.find_plan(config.waiting).unwrap();
            let plan = &mut config.plans[at];
            plan.flags |= STEPPED;
            if given == 1 {
                plan.left -= 1;
            } else {
                plan.flags |= FAILED;
            }
            config.waiting = 0;
            Ok(Report {
                did: Did::Ok,
                made: 0,
                gone: 0,
            })
        })
    }

    pub fn delete(&mut self, program: &Program, config: &mut Config, target: u32) -> Answer {
        self.call(program, config, |core, _, _, config| {
            if config.waiting != 0 {
                return Err(6);
            }
            if !(1..=65535).contains(&target) {
                return Err(12);
            }
            let target = target as u16;
            if config.find_atom(target).is_none() && config.find_plan(target).is_none() {
                return Err(12);
            }
            Ok(Report {
                did: Did::Ok,
                made: 0,
                gone: config.delete(target, &mut core.dead),
            })
        })
    }
}
