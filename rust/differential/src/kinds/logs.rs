use crate::call::Call;
use crate::logs::generated;
use crate::planning::planning;
use crate::session::Session;
use crate::shape::Shape;
use crate::tally::Tally;
use crate::turns::choice;
use model::replay::evs_lent;
use model::{Reader, Rng};

/// The records as calls, up to the first that is malformed, with choices and plans between them.
pub fn run(seed: u64, tally: &mut Tally) -> Result<(), String> {
    let mut rng = Rng::new(seed);
    let log = generated(&mut rng, 1_500);
    let mut reader = Reader::new(&log);
    let other = Shape::for_log(&mut rng);
    let shape = rng.pick(&[Shape::PROGRAM, Shape::PROGRAM, other]);
    let mut session = Session::new(shape.model(evs_lent(&log)));
    tally.cases += 1;
    while let Ok(Some(record)) = reader.next_record() {
        let settings = record.settings().map(|settings| Call::set_up(&settings));
        let event = record.event().map(|event| Call::of(&event));
        if let Some(call) = settings.or(event) {
            session.call(call, tally)?;
        }
        if rng.one_in(8) {
            session.call(choice(&mut rng), tally)?;
        }
        if rng.one_in(64) {
            let bytes = rng.pick(&[41, 41, 1_000, 4_096]);
            let call = planning(&mut rng, session.clock(), bytes);
            session.call(call, tally)?;
        }
    }
    Ok(())
}
