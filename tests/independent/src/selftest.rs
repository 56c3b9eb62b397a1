//! Document 01's samples, the list theorem as a test, and the laws of flips and replaces.

use crate::calls::Answer;
use crate::closing::Closing;
use crate::compare::{check_net, compare_calls, first_net};
use crate::counts::OF_A_LIBRARY;
use crate::generate::{encode, made, Caller, Mood};
use crate::laws::run_laws;
use crate::library::Model;
use crate::machine::Machine;
use crate::random::Random;
use crate::record::read;
use crate::samples::check_samples;
use crate::shape::Shape;

/// Samples, machine against handed net, two ways to one frame, then the comparison and the
/// laws, on as many nets, with this package as the library.
pub fn selftest(lists: usize, seed: u64) -> Result<Closing, String> {
    check_samples()?;
    let mut random = Random::new(seed);
    for number in 0..lists.min(600) {
        list_theorem(&mut random, number).map_err(|what| format!("seed {seed}, theorem {number}: {what}"))?;
    }
    let compared = compare_calls(&mut Model, lists, seed)?.closing(OF_A_LIBRARY);
    Ok(compared.and(run_laws(&mut Model, lists, seed)?.closing()))
}

/// Along a random list the answers agree, and the net left is the polar values over
/// the machine's frame, by i128 and by the exact integer alike. A second list that
/// makes up for its way back reaches the same frame and leaves the same net.
fn list_theorem(random: &mut Random, number: usize) -> Result<(), String> {
    let mood = Mood::ALL[number % Mood::ALL.len()];
    let shape = Shape::all()[number % Shape::all().len()];
    let made = made(random, shape, mood);
    let again = read(&encode(&made.record)).map_err(|refusal| format!("{refusal:?}"))?;
    if again != made.record {
        return Err("a record read back is another".to_string());
    }
    let (mut machine, mut net) = (Machine::new(&made.record), first_net(&made.record));
    let (mut direct, mut direct_net) = (machine.clone(), net.clone());
    let mut caller = Caller::new(&made, mood, 64);
    for _ in 0..random.below(30) {
        let call = caller.next(random, machine.frame());
        let (answer, other) = (machine.answer(&call), net.answer(&call));
        caller.heard(&call, answer == Answer::Taken);
        if answer != other {
            return Err(format!("{call:?}: machine {answer:?}, net {other:?}, record {:?}", made.record));
        }
        if answer == Answer::Taken {
            direct.answer(&call);
            direct_net.answer(&call);
        }
    }
    check_net(&machine, &net)?;
    if machine.net() != machine.net_exactly() {
        return Err("i128 and exact integer disagree".to_string());
    }
    if machine.frame() != direct.frame() || net != direct_net {
        return Err("the accepted calls alone lead elsewhere".to_string());
    }
    Ok(())
}
