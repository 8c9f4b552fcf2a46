//! Ranks as threads, and each refusal.

use std::error::Error;
use std::thread;
use worzsunab::{
    bytes_of, values_of, About, Call, Element, Engine, Field, Kind, Limits, List, ListRefusal, Mismatch, Op, Phase,
    Port, Refusal, Request, Rule, Stopped, Type,
};

fn by_ranks(engine: &Engine, ranks: u8, body: impl Fn(Port, u8) + Sync) {
    thread::scope(|threads| {
        for port in ports(engine, ranks) {
            let body = &body;
            threads.spawn(move || {
                let rank = port.rank();
                body(port, rank);
            });
        }
    });
}

fn ports(engine: &Engine, ranks: u8) -> Vec<Port<'_>> {
    (0..ranks).map(|rank| engine.port(rank).unwrap()).collect()
}

fn number(bytes: [u8; 4]) -> i32 {
    i32::from_le_bytes(bytes)
}

const SUM: fn() -> Call = || Call::allreduce(Op::Sum, Type::I32, 1);

#[test]
fn four_ranks_sum_many_times() {
    let engine = Engine::of_ranks(4).unwrap();
    by_ranks(&engine, 4, |port, rank| {
        for i in 0..300 {
            let mut request = port.post(0, SUM(), &(i32::from(rank) + i).to_le_bytes()).unwrap();
            let mut sum = [0; 4];
            assert_eq!(port.wait(&mut request, &mut sum), Ok(4));
            assert_eq!(number(sum), 6 + 4 * i);
            assert!(request.is_null());
        }
    });
    assert_eq!(engine.lent(), 0);
}

#[test]
fn a_persistent_request_is_started_again() {
    let engine = Engine::of_ranks(3).unwrap();
    by_ranks(&engine, 3, |port, rank| {
        let mut request = port.init(0, Call::scan(Op::Max, Type::I32, 1)).unwrap();
        assert_eq!(port.phase(&request), Ok(Phase::Idle));
        for i in 0..100 {
            port.start(&request, &(i32::from(rank) * 2 - i).to_le_bytes()).unwrap();
            let mut most = [0; 4];
            port.wait(&mut request, &mut most).unwrap();
            assert_eq!(number(most), i32::from(rank) * 2 - i);
        }
        port.free(&mut request).unwrap();
        assert_eq!(port.start(&request, &[0; 4]), Err(Refusal::Stale));
    });
}

/// A call, with what each member gives and gets.
type Example = (Call, Vec<&'static [u8]>, Vec<&'static [u8]>);

fn examples() -> Vec<Example> {
    vec![
        // tools/words: examples
        (Call::barrier(), vec![&[], &[], &[]], vec![&[], &[], &[]]),
        (Call::bcast(1, Type::U8, 1), vec![&[], &[7], &[]], vec![&[7], &[7], &[7]]),
        (Call::gather(1, Type::U8, 1), vec![&[1], &[2], &[3]], vec![&[], &[1, 2, 3], &[]]),
        (Call::scatter(1, Type::U8, 1), vec![&[], &[1, 2, 3], &[]], vec![&[1], &[2], &[3]]),
        (Call::allgather(Type::U8, 1), vec![&[1], &[2], &[3]], vec![&[1, 2, 3], &[1, 2, 3], &[1, 2, 3]]),
        (Call::alltoall(Type::U8, 1), vec![&[1, 2, 3], &[4, 5, 6], &[7, 8, 9]], vec![&[1, 4, 7], &[2, 5, 8], &[3, 6, 9]]),
        (Call::reduce(1, Op::Sum, Type::U8, 1), vec![&[1], &[2], &[3]], vec![&[], &[6], &[]]),
        (Call::allreduce(Op::Sum, Type::U8, 1), vec![&[1], &[2], &[3]], vec![&[6], &[6], &[6]]),
        (Call::reduce_scatter_block(Op::Sum, Type::U8, 1), vec![&[1, 2, 3], &[4, 5, 6], &[7, 8, 9]], vec![&[12], &[15], &[18]]),
        (Call::scan(Op::Sum, Type::U8, 1), vec![&[1], &[2], &[3]], vec![&[1], &[3], &[6]]),
        (Call::exscan(Op::Sum, Type::U8, 1), vec![&[1], &[2], &[3]], vec![&[], &[1], &[3]]),
        (Call::allreduce(Op::Max, Type::I8, 1), vec![&[255], &[128], &[254]], vec![&[255], &[255], &[255]]),
        (Call::allreduce(Op::Min, Type::U16, 1), vec![&[188, 2], &[3, 0]], vec![&[3, 0], &[3, 0]]),
        (Call::allreduce(Op::Sum, Type::I8, 1), vec![&[127], &[1], &[0]], vec![&[128], &[128], &[128]]),
        (Call::allreduce(Op::Prod, Type::U8, 1), vec![&[20], &[13], &[2]], vec![&[8], &[8], &[8]]),
        (Call::allreduce(Op::Land, Type::I32, 1), vec![&[5, 0, 0, 0], &[5, 0, 0, 0]], vec![&[1, 0, 0, 0], &[1, 0, 0, 0]]),
        (Call::allreduce(Op::Lor, Type::I16, 1), vec![&[0, 0], &[4, 0], &[0, 0]], vec![&[1, 0], &[1, 0], &[1, 0]]),
        (Call::allreduce(Op::Lxor, Type::I8, 1), vec![&[5], &[5], &[5]], vec![&[1], &[1], &[1]]),
        (Call::allreduce(Op::Band, Type::Byte, 1), vec![&[12], &[10]], vec![&[8], &[8]]),
        (Call::allreduce(Op::Bor, Type::U64, 1), vec![&[12, 0, 0, 0, 0, 0, 0, 0], &[10, 0, 0, 0, 0, 0, 0, 0]], vec![&[14, 0, 0, 0, 0, 0, 0, 0], &[14, 0, 0, 0, 0, 0, 0, 0]]),
        (Call::allreduce(Op::Bxor, Type::Byte, 1), vec![&[12], &[10]], vec![&[6], &[6]]),
        (Call::allreduce(Op::LastNz, Type::I32, 1), vec![&[3, 0, 0, 0], &[0, 0, 0, 0], &[5, 0, 0, 0], &[0, 0, 0, 0]], vec![&[5, 0, 0, 0], &[5, 0, 0, 0], &[5, 0, 0, 0], &[5, 0, 0, 0]]),
        (Call::allreduce(Op::MaxLoc, Type::Pair, 1), vec![&[7, 0, 0, 0, 2, 0, 0, 0], &[9, 0, 0, 0, 5, 0, 0, 0], &[9, 0, 0, 0, 1, 0, 0, 0]], vec![&[9, 0, 0, 0, 1, 0, 0, 0], &[9, 0, 0, 0, 1, 0, 0, 0], &[9, 0, 0, 0, 1, 0, 0, 0]]),
        (Call::allreduce(Op::MinLoc, Type::Pair, 1), vec![&[7, 0, 0, 0, 4, 0, 0, 0], &[7, 0, 0, 0, 2, 0, 0, 0], &[9, 0, 0, 0, 1, 0, 0, 0]], vec![&[7, 0, 0, 0, 2, 0, 0, 0], &[7, 0, 0, 0, 2, 0, 0, 0], &[7, 0, 0, 0, 2, 0, 0, 0]]),
        // tools/words: end of examples
    ]
}

#[test]
fn each_kind_and_operation_has_its_value() {
    for (call, given, got) in examples() {
        let members = given.len() as u8;
        let engine = Engine::of_ranks(members).unwrap();
        by_ranks(&engine, members, |port, rank| {
            let mut request = port.post(0, call, given[usize::from(rank)]).unwrap();
            let mut out = [99; 8];
            let count = port.wait(&mut request, &mut out).unwrap();
            assert_eq!(out[..count], *got[usize::from(rank)], "{call} at rank {rank}");
        });
    }
}

#[test]
fn a_wait_that_nobody_can_end_is_told() {
    let engine = Engine::of_ranks(3).unwrap();
    by_ranks(&engine, 3, |port, rank| {
        if rank == 2 {
            drop(port);
            return;
        }
        let mut request = port.post(0, Call::barrier(), &[]).unwrap();
        assert_eq!(port.wait(&mut request, &mut []), Err(Refusal::Stalled));
        assert_eq!(port.phase(&request), Ok(Phase::Pending));
    });
}

#[test]
fn communicators_number_their_members() {
    let engine = Engine::open(3, &[&[0, 1, 2], &[2, 0]], Limits::default()).unwrap();
    let ports = ports(&engine, 3);
    let mut second = ports[0].post(1, Call::bcast(0, Type::U8, 1), &[]).unwrap();
    assert_eq!(ports[0].test(&mut second, &mut [0]), Ok(None));
    let mut first = ports[2].post(1, Call::bcast(0, Type::U8, 1), &[9]).unwrap();
    let mut out = [0];
    assert_eq!(ports[0].test(&mut second, &mut out), Ok(Some(1)));
    assert_eq!(ports[2].wait(&mut first, &mut out), Ok(1));
    assert_eq!(out, [9]);
    assert_eq!(ports[1].post(1, Call::barrier(), &[]), Err(Refusal::NotMember { rank: 1 }));
    assert_eq!(ports[1].post(2, Call::barrier(), &[]), Err(Refusal::BadComm { comm: 2 }));
}

#[test]
fn refusals_change_nothing() {
    assert_eq!(Engine::of_ranks(0).err(), Some(Refusal::BadConfig(Field::Ranks)));
    assert_eq!(Engine::of_ranks(65).err(), Some(Refusal::BadConfig(Field::Ranks)));
    assert_eq!(Engine::open(2, &[&[0, 0]], Limits::default()).err(), Some(Refusal::BadConfig(Field::Groups)));
    let few = Limits { slots: 2, places: 2, wear: 9, starts: 1 };
    let engine = Engine::open(2, &[&[0, 1]], few).unwrap();
    let ports = ports(&engine, 2);
    let four = [1, 0, 0, 0];
    assert_eq!(ports[0].post(0, Call::bcast(2, Type::U8, 1), &[]), Err(Refusal::BadSignature(Rule::Root)));
    assert_eq!(ports[0].post(0, SUM(), &[1]), Err(Refusal::BadLength { want: 4, got: 1 }));
    let mut mine = ports[0].init(0, SUM()).unwrap();
    let of_rank_0 = Mismatch { place: 0, first: 0, persistent: true, call: SUM() };
    assert_eq!(ports[1].post(0, SUM(), &four), Err(Refusal::Mismatch(of_rank_0)));
    let mut yours = ports[1].init(0, SUM()).unwrap();
    assert_eq!(ports[1].init(0, SUM()), Err(Refusal::Full));
    assert_eq!(ports[0].start(&mine, &[1]), Err(Refusal::BadLength { want: 4, got: 1 }));
    ports[0].start(&mine, &four).unwrap();
    assert_eq!(ports[0].start(&mine, &four), Err(Refusal::Active));
    assert_eq!(ports[0].free(&mut mine), Err(Refusal::Active));
    ports[1].start(&yours, &four).unwrap();
    let mut out = [7; 4];
    assert_eq!(ports[0].test(&mut mine, &mut out[..3]), Err(Refusal::BadLength { want: 4, got: 3 }));
    assert_eq!(out, [7; 4]);
    assert_eq!(ports[0].test(&mut mine, &mut out), Ok(Some(4)));
    assert_eq!(number(out), 2);
    assert_eq!(ports[1].wait(&mut yours, &mut out), Ok(4));
    assert_eq!(ports[0].start(&mine, &four), Err(Refusal::StartsUsed));
    ports[0].free(&mut mine).unwrap();
    ports[1].free(&mut yours).unwrap();
    let mut once = ports[0].post(0, SUM(), &four).unwrap();
    assert_eq!(ports[0].start(&once, &four), Err(Refusal::NotPersistent));
    assert_eq!(ports[0].free(&mut once), Err(Refusal::NotPersistent));
    assert_eq!(ports[0].post(0, SUM(), &four), Err(Refusal::PlacesUsed));
}

#[test]
fn sentences_and_numbers() {
    let other = Mismatch { place: 3, first: 1, persistent: true, call: Call::bcast(2, Type::I32, 5) };
    assert_eq!(
        Refusal::Mismatch(other).to_string(),
        "at place 3 rank 1 has another collective: persistent bcast, i32, root 2, count 5"
    );
    let short = Refusal::BadLength { want: 8, got: 3 };
    assert_eq!((short.number(), short.to_string().as_str()), (4, "8 bytes are due, not 3"));
    assert_eq!(Refusal::BadConfig(Field::Wear).to_string(), "what is given as wear is out of its range");
    fn shared<T: Send + Sync>() {}
    fn sent<T: Send>() {}
    sent::<Port>();
    shared::<Engine>();
    shared::<Request>();
    shared::<List>();
    shared::<Refusal>();
}

#[test]
fn members_of_an_allgatherv_give_as_many_as_is_counted() {
    let engine = Engine::of_ranks(3).unwrap();
    by_ranks(&engine, 3, |port, rank| {
        let counts = [2, 0, 3];
        let mine = vec![rank + 10; counts[usize::from(rank)] as usize];
        let mut once = port.post_allgatherv(0, Type::U8, &counts, &mine).unwrap();
        let mut out = [0; 6];
        assert_eq!(port.wait(&mut once, &mut out), Ok(5));
        assert_eq!(out, [10, 10, 12, 12, 12, 0]);
        let mut again = port.init_allgatherv(0, Type::U8, &counts).unwrap();
        for _ in 0..3 {
            port.start(&again, &mine).unwrap();
            assert_eq!(port.wait(&mut again, &mut out), Ok(5));
        }
        port.free(&mut again).unwrap();
    });
    let engine = Engine::of_ranks(3).unwrap();
    let ports = ports(&engine, 3);
    let counts = [1; 65];
    assert_eq!(ports[0].post_allgatherv(0, Type::U8, &counts, &[1]).err(), Some(Refusal::BadSignature(Rule::Count)));
    assert_eq!(
        ports[0].post_allgatherv(0, Type::U8, &counts[..4], &[1]).err(),
        Some(Refusal::BadSignature(Rule::Count))
    );
    let short = Refusal::BadLength { want: 1, got: 2 };
    assert_eq!(ports[0].post_allgatherv(0, Type::U8, &counts[..3], &[1, 2]).err(), Some(short));
}

#[test]
fn the_counts_of_a_mismatch_are_told() {
    let engine = Engine::of_ranks(2).unwrap();
    let ports = ports(&engine, 2);
    assert_eq!(engine.posted_at(0, 0), None);
    let _given = ports[1].post_allgatherv(0, Type::U16, &[2, 1], &[1, 0]).unwrap();
    let Err(Refusal::Mismatch(other)) = ports[0].init_allgatherv(0, Type::U16, &[1, 1]) else {
        panic!("the counts differ");
    };
    assert_eq!((other.place, other.first, other.persistent, other.call.kind()), (0, 1, false, Kind::Allgatherv));
    let posted = engine.posted_at(0, other.place).unwrap();
    assert_eq!((posted.call, posted.persistent, posted.counts.as_slice()), (other.call, false, &[2, 1][..]));
    assert_eq!((posted.call.ty(), posted.call.op(), posted.call.root()), (Type::U16, None, 0));
    ports[0].init(0, SUM()).unwrap_err();
    assert_eq!((engine.posted_at(0, 1), engine.posted_at(1, 0)), (None, None));
}

#[test]
fn words_of_a_mismatch_are_those_of_job_texts() {
    let engine = Engine::of_ranks(2).unwrap();
    let ports = ports(&engine, 2);
    let given = Call::allreduce(Op::MinLoc, Type::Pair, 1);
    let _given = ports[1].init(0, given).unwrap();
    let why = ports[0].init(0, SUM()).unwrap_err();
    assert!(why.to_string().contains("persistent allreduce, minloc, 2int, count 1"), "{why}");
}

#[test]
fn lists_of_requests() {
    let engine = Engine::of_ranks(2).unwrap();
    let ports = ports(&engine, 2);
    let (mut mine, mut yours) = (List::new(0), List::new(1));
    for i in 0..2 {
        mine.push(ports[0].init(0, SUM()).unwrap(), 4 * i, 4).unwrap();
        yours.push(ports[1].init(0, SUM()).unwrap(), 4 * i, 4).unwrap();
    }
    let mut out = [0; 8];
    assert_eq!(ports[0].test_any(&mut mine, &mut out), Ok(None));
    assert_eq!(
        ports[0].start_all(&mut mine, &[1; 6]),
        Err(Stopped { at: 1, why: Refusal::BadLength { want: 4, got: 2 } })
    );
    assert_eq!(ports[0].test_any(&mut mine, &mut out), Err(ListRefusal::Pending));
    assert_eq!(ports[0].test_some(&mut mine, &mut out), Ok(Some(0)));
    ports[1].start_all(&mut yours, &[0, 0, 0, 1, 0, 0, 0, 2]).unwrap();
    assert_eq!(ports[1].test_all(&mut yours, &mut out), Err(ListRefusal::Pending));
    assert_eq!(ports[1].test_any(&mut yours, &mut out), Ok(Some(0)));
    assert_eq!((out, yours.completed(0), yours.completed(1)), ([1, 1, 1, 2, 0, 0, 0, 0], Some(4), None));
    assert_eq!(yours.outcomes(&out).collect::<Vec<_>>(), [(0, &[1, 1, 1, 2][..])]);
    let first = mine.take(0).unwrap();
    assert_eq!(ports[0].test_all(&mut mine, &mut out), Ok(()));
    let second = mine.take(1).unwrap();
    assert!(mine.take(0).unwrap().is_null() && mine.take(2).is_none());
    ports[0].start(&second, &[5; 4]).unwrap();
    mine = List::new(0);
    mine.push(second, 4, 4).unwrap();
    mine.push(first, 0, 3).unwrap();
    assert_eq!(ports[0].test_all(&mut mine, &mut out), Err(Refusal::BadLength { want: 4, got: 3 }.into()));
    assert_eq!(ports[0].test_any(&mut mine, &mut out), Ok(Some(0)));
    assert_eq!(out[4..], [5, 5, 5, 7]);
    let other = ports[1].init(0, SUM()).unwrap();
    assert!(mine.push(other, 0, 4).is_err());
}

#[test]
fn numbers_are_given_and_got() {
    let engine = Engine::of_ranks(3).unwrap();
    by_ranks(&engine, 3, |port, rank| {
        let rows = Call::exscan(Op::Prod, i64::TYPE, 2);
        let mut request = port.post(0, rows, &bytes_of(&[-2_i64, i64::from(rank) + 1])).unwrap();
        let length = if rank == 0 { 0 } else { 16 };
        assert_eq!(port.outcome_length(&request), Ok(length));
        let about = About { rank, persistent: false, comm: 0, place: 0, starts: 1 };
        assert_eq!(port.engine().about(&request), Ok(about));
        let short = Refusal::BadLength { want: 8, got: 4 };
        let wants = [vec![], vec![-2, 1], vec![4, 2]];
        assert_eq!(port.wait_values::<i64>(&mut request).as_ref(), Ok(&wants[usize::from(rank)]));
        assert_eq!(port.wait_values::<i64>(&mut request), Ok(vec![]));
        assert_eq!(
            (port.engine().about(&request), port.outcome_length(&request)),
            (Err(Refusal::Stale), Err(Refusal::Stale))
        );
        let mut four = port.post(0, SUM(), &bytes_of(&[1_i32])).unwrap();
        assert_eq!(port.wait_values::<i64>(&mut four), Err(short));
        assert_eq!(port.wait_bytes(&mut four), Ok(vec![3, 0, 0, 0]));
    });
    assert_eq!(values_of::<u16>(&[1, 2, 3]), Err(Refusal::BadLength { want: 2, got: 1 }));
    assert_eq!(format!("{engine:?}"), "Engine { ranks: 3, sizes: [3], .. }");
}

#[test]
fn what_is_refused_is_an_error() {
    let told = |why: &dyn Error| why.to_string();
    let full = Refusal::Full;
    assert_eq!(told(&full), "no request slot is free");
    assert_eq!(told(&ListRefusal::from(full)), told(&full));
    assert_eq!(told(&ListRefusal::Pending), "what is asked for of the list isn't done yet");
    assert_eq!(told(&Stopped { at: 2, why: full }), "request 2 of the list isn't started: no request slot is free");
    assert_eq!((full.mpi_class(), Refusal::Stale.mpi_class()), ("MPI_ERR_OTHER", "MPI_ERR_REQUEST"));
}

#[test]
fn a_list_is_waited_for() {
    let engine = Engine::of_ranks(4).unwrap();
    by_ranks(&engine, 4, |port, rank| {
        let mut list = List::new(rank);
        for i in 0..3 {
            list.push(port.init(0, SUM()).unwrap(), 4 * i, 4).unwrap();
        }
        for start in 0..100 {
            port.start_all(&mut list, &bytes_of(&[start, i32::from(rank), 1])).unwrap();
            let mut out = [0; 12];
            port.wait_all(&mut list, &mut out).unwrap();
            assert_eq!(values_of(&out), Ok(vec![4 * start, 6, 4]));
        }
        assert_eq!(port.wait_all(&mut list, &mut []), Ok(()));
        if rank == 3 {
            drop(port);
            return;
        }
        port.start_all(&mut list, &[0; 12]).unwrap();
        assert_eq!(port.wait_all(&mut list, &mut [0; 12]), Err(Refusal::Stalled));
    });
}

#[test]
fn one_or_some_of_a_list_are_waited_for() {
    let engine = Engine::of_ranks(3).unwrap();
    by_ranks(&engine, 3, |port, rank| {
        for round in 0..50 {
            let mut list = List::new(rank);
            for i in 0..4 {
                let given = bytes_of(&[round + i]);
                let bytes: &[u8] = if rank == 0 { &given } else { &[] };
                list.push(port.post(0, Call::bcast(0, Type::I32, 1), bytes).unwrap(), 4 * i as usize, 4).unwrap();
            }
            let mut out = [0; 16];
            let first = port.wait_any(&mut list, &mut out).unwrap().unwrap();
            assert_eq!(values_of(&out[4 * first..4 * first + 4]), Ok(vec![round + first as i32]));
            let mut completed = 1;
            while let Some(some) = port.wait_some(&mut list, &mut out).unwrap() {
                assert!(some > 0);
                completed += some;
            }
            assert_eq!((completed, port.wait_any(&mut list, &mut out)), (4, Ok(None)));
        }
        if rank == 0 {
            return;
        }
        let mut list = List::new(rank);
        list.push(port.post(0, Call::barrier(), &[]).unwrap(), 0, 0).unwrap();
        assert_eq!(port.wait_any(&mut list, &mut []), Err(Refusal::Stalled));
        assert_eq!(port.wait_some(&mut list, &mut []), Err(Refusal::Stalled));
    });
}

#[test]
fn a_port_is_one_and_its_end_is_told() {
    let engine = Engine::of_ranks(2).unwrap();
    let first = engine.port(0).unwrap();
    assert!(engine.port(0).is_none() && engine.port(2).is_none());
    let second = engine.port(1).unwrap();
    let mut request = first.post(0, Call::barrier(), &[]).unwrap();
    assert_eq!(second.test(&mut request, &mut []), Err(Refusal::NotYours));
    drop(second);
    assert_eq!(first.wait(&mut request, &mut []), Err(Refusal::Stalled));
}

#[test]
fn progress_threads_go_on_while_ranks_compute() {
    let engine = Engine::of_ranks(2).unwrap();
    assert_eq!(engine.set_progress_threads(9), Err(Refusal::BadConfig(Field::Progress)));
    for threads in [1, 2, 8, 0, 1] {
        engine.set_progress_threads(threads).unwrap();
    }
    by_ranks(&engine, 2, |port, rank| {
        for i in 0..20 {
            let row: Vec<i64> = (0..2_000).map(|at| at + i64::from(rank) + i).collect();
            let mut request = port.post(0, Call::allreduce(Op::Sum, Type::I64, 2_000), &bytes_of(&row)).unwrap();
            let sums: Vec<i64> = port.wait_values(&mut request).unwrap();
            assert!(sums.iter().zip(0..).all(|(sum, at)| *sum == 2 * (at + i) + 1));
        }
    });
    assert_eq!(engine.lent(), 0);
}

#[test]
fn a_stall_is_told_beside_progress_threads() {
    let engine = Engine::of_ranks(2).unwrap();
    engine.set_progress_threads(2).unwrap();
    by_ranks(&engine, 2, |port, rank| {
        if rank == 0 {
            let mut request = port.post(0, Call::barrier(), &[]).unwrap();
            assert_eq!(port.wait(&mut request, &mut []), Err(Refusal::Stalled));
        }
    });
}
