//! What a program prints, compared byte by byte without printing all of it again.

/// Both are the same; else the first line that differs is told.
pub fn assert_same(printed: &str, expected: &str, input: &str) {
    if printed == expected {
        return;
    }
    let lines = |text: &str| text.lines().map(str::to_string).collect::<Vec<String>>();
    let (got, wanted) = (lines(printed), lines(expected));
    let place = got.iter().zip(&wanted).take_while(|(one, other)| one == other).count();
    panic!(
        "{input}: {} bytes in {} lines and not {} in {}; line {} is {:?} and not {:?}",
        printed.len(),
        got.len(),
        expected.len(),
        wanted.len(),
        place + 1,
        got.get(place),
        wanted.get(place)
    );
}
