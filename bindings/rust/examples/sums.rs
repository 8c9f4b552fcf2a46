//! Four ranks, each a thread: a sum of their numbers, and one that is started a thousand times.

use std::thread;

use worzsunab::{bytes_of, Call, Engine, Op, Port, Refusal, Type};

const RANKS: u8 = 4;
const STARTS: i32 = 1_000;

/// What one rank does: the sum that it gets, and the last one of the persistent request.
fn rank(port: &Port) -> Result<(i32, i32), Refusal> {
    let mine = i32::from(port.rank());
    let sum_of_all = Call::allreduce(Op::Sum, Type::I32, 1);
    let mut once = port.post(0, sum_of_all, &bytes_of(&[mine]))?;
    // The call is under way: here the rank computes something else.
    let sums: Vec<i32> = port.wait_values(&mut once)?;
    let mut again = port.init(0, sum_of_all)?;
    let mut last = [0; 4];
    for start in 0..STARTS {
        port.start(&again, &(mine + start).to_le_bytes())?;
        port.wait(&mut again, &mut last)?;
    }
    port.free(&mut again)?;
    Ok((sums[0], i32::from_le_bytes(last)))
}

fn main() -> Result<(), Refusal> {
    let engine = Engine::of_ranks(RANKS)?;
    thread::scope(|threads| {
        let ports = (0..RANKS).map(|me| engine.port(me).expect("nobody has it"));
        // A rank leaves when its port is dropped, so also where it ends with a refusal.
        let ranks: Vec<_> = ports.map(|port| threads.spawn(move || rank(&port))).collect();
        for (me, ended) in ranks.into_iter().enumerate() {
            match ended.join().expect("no rank panics") {
                Ok((sum, last)) => println!("rank {me}: {sum}, at last {last}"),
                Err(why) => println!("rank {me}: {why}"),
            }
        }
    });
    Ok(())
}
