//! Arrays that go in and out as numbers.
use kaolinsilk::{Board, Ended, Error, Extent, Job, Subject};

const TEXT: &str = "pardo 1\nrule crew\nconst n = 4\nprocs i < n\nshared T[2, n]\n\
                    shared A[n] = 1, 2, 3, 4\nshared add = 1\ncode\nA[i] := A[i] + add\n";

fn ended_with(text: &str, values: &[(&str, &[u32])]) -> Vec<u32> {
    let job = Job::parse(text).unwrap();
    let board = Board::open_with(&job, 2, values).unwrap();
    assert_eq!(board.worker(1).unwrap().finish(), Ended::Done);
    board.seat().unwrap().memory().unwrap().unwrap()
}

fn refused(values: &[(&str, &[u32])]) -> Error {
    Board::open_with(&Job::parse(TEXT).unwrap(), 1, values).unwrap_err()
}

#[test]
fn what_is_given_is_worked_on() {
    let (job, table) = (Job::parse(TEXT).unwrap(), [1, 2, 3, 4, 5, 6, 7, 8]);
    let cells = ended_with(TEXT, &[("add", &[10]), ("A", &[3, 1, 4, 1]), ("T", &table)]);
    let of = |name| job.extent(name).unwrap().unwrap().of(&cells);
    assert_eq!((of("A"), of("add")), (&[13, 11, 14, 11][..], &[10][..]));
    assert_eq!(of("T"), table);
    assert_eq!(ended_with(TEXT, &[])[8..13], [2, 3, 4, 5, 1]);
}

#[test]
fn where_arrays_lie() {
    let job = Job::parse(TEXT).unwrap();
    let table = Extent {
        first: 0,
        length: 8,
        columns: Some(4),
        is_array: true,
    };
    assert_eq!(job.extent("T").unwrap(), Some(table));
    let add = job.extent("add").unwrap().unwrap();
    assert_eq!(
        (add.range(), add.columns, add.is_array),
        (12..13, None, false)
    );
    assert_eq!(job.extent("n").unwrap(), None);
}

#[test]
fn what_does_not_fit_is_refused() {
    let told = |error: Error| (error.subject(), error.line(), error.kind().to_string());
    let few = refused(&[("add", &[1]), ("A", &[1, 2, 3])]);
    assert_eq!(told(few), (Subject::Setting, Some(2), "WrongLength".into()));
    let unknown = refused(&[("B", &[1]), ("A", &[])]);
    assert_eq!(
        told(unknown),
        (Subject::Setting, Some(1), "UnknownName".into())
    );
    let job = Job::parse(TEXT).unwrap();
    let many = Board::open_with(&job, 65, &[]).unwrap_err();
    assert_eq!(many.subject(), Subject::Request);
}

#[test]
fn half_a_million_values() {
    let text = "pardo 1\nrule crew\nprocs i < 1\nshared A[500000]\ncode\nA[0] := A[0] + 1\n";
    let given: Vec<u32> = (0..500_000).collect();
    let cells = ended_with(text, &[("A", &given)]);
    assert_eq!((cells[0], &cells[1..500_000]), (1, &given[1..]));
}
