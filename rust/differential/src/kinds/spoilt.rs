use crate::call::Call;
use crate::profile::PROFILES;
use crate::session::Session;
use crate::shape::Shape;
use crate::sides::Model;
use crate::sound::sound;
use crate::source::Source;
use crate::spoil::spoil;
use crate::tally::Tally;
use model::Rng;

pub fn run(seed: u64, tally: &mut Tally) -> Result<(), String> {
    let mut rng = Rng::new(seed);
    for _ in 0..20 {
        on_made_up(Rng::new(rng.next_u64()), tally)?;
    }
    on_stream(rng, tally)
}

fn on_made_up(mut rng: Rng, tally: &mut Tally) -> Result<(), String> {
    let shape = Shape::any(&mut rng);
    let start = sound(&mut rng, shape);
    let profile = rng.pick(&PROFILES);
    let mut source = Source::new(rng, profile);
    for _ in 0..5 {
        one(&mut source, &start, tally)?;
    }
    Ok(())
}

/// States that a stream comes to.
fn on_stream(mut rng: Rng, tally: &mut Tally) -> Result<(), String> {
    let profile = rng.pick(&PROFILES);
    let settings = profile.settings(&mut rng);
    let shape = Shape::any(&mut rng);
    let mut model = shape.model(settings.ev_count as usize);
    model.answer(&Call::set_up(&settings));
    let mut source = Source::new(rng, profile);
    for _ in 0..100 {
        for _ in 0..5 {
            let call = source.next(&model);
            model.answer(&call);
        }
        one(&mut source, &model, tally)?;
    }
    Ok(())
}

/// One or two things are spoilt, then a call is made that was meant for the sound state.
fn one(source: &mut Source, sound: &Model, tally: &mut Tally) -> Result<(), String> {
    let call = source.next(sound);
    let mut start = sound.clone();
    for _ in 0..source.rng.pick(&[1, 1, 2]) {
        spoil(&mut source.rng, &mut start);
    }
    tally.cases += 1;
    Session::new(start).call(call, tally).map(|_| ())
}
