use crate::profile::PROFILES;
use crate::session::Session;
use crate::shape::Shape;
use crate::sound::sound;
use crate::source::Source;
use crate::tally::Tally;
use model::Rng;

pub fn run(seed: u64, tally: &mut Tally) -> Result<(), String> {
    let mut rng = Rng::new(seed);
    for _ in 0..50 {
        one(Rng::new(rng.next_u64()), tally)?;
    }
    Ok(())
}

/// A few calls on a made-up state.
fn one(mut rng: Rng, tally: &mut Tally) -> Result<(), String> {
    let shape = Shape::any(&mut rng);
    let mut start = sound(&mut rng, shape);
    if !start.sound() {
        let (state, flows) = (start.state(), start.flows());
        return Err(format!(
            "a made-up state is not sound: {state:?}, {flows:?}"
        ));
    }
    let profile = rng.pick(&PROFILES);
    let calls = rng.between(1, 24);
    let mut source = Source::new(rng, profile);
    let mut session = Session::new(start);
    tally.cases += 1;
    for _ in 0..calls {
        session.step(&mut source, tally)?;
    }
    Ok(())
}
