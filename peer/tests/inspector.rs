//! The inspector's screen: the bytes of the row that answers, and which row it is,
//! by every number that may be asked for and in every piece of lent memory.

use checkraven::RowKey;
use peer::compare::{at_address, earlier_bytes, face, limited, run_proved, thinned};
use peer::compare::{Case, Inspected, RowCase, Tally};
use peer::make::generate::{self, key_of, Size};
use peer::make::inspect::{asked, row_case};
use peer::make::{edges, every_two, own, two_kinds, Book, Random, Row};
use peer::plain::{row, Asked};

/// Rows at a few scales, media and pollutants of near places, with a coefficient of
/// its own each, in books whose rows stand at different offsets.
fn books() -> [Book; 2] {
    let row = |(place, scale, medium, pollutant), digits| Row {
        place,
        scale,
        ..Row::plain(medium, pollutant, digits)
    };
    let (here, next, far) = ([3240, 1, 1, 1], [3240, 1, 1, 2], [65_535, 256, 255, 0]);
    let own = [(here, 0, 1, 1), (here, 2, 1, 1), (next, 7, 1, 1), (far, 65_535, 3, 255)];
    let published = [
        (here, 0, 1, 1),
        (here, 3, 1, 1),
        (here, 3, 2, 1),
        (next, 0, 1, 1),
        (next, 7, 1, 2),
        (far, 0, 3, 255),
    ];
    let rows = |keys: &[generate::Key], first: u32| {
        keys.iter().zip(first..).map(|(&key, digits)| row(key, digits)).collect()
    };
    [
        Book { rows: rows(&own, 1), gaps: [5, 0, 3], ..Book::default() },
        Book { rows: rows(&published, 101), gaps: [0, 7, 0], ..Book::default() },
    ]
}

fn fits_its_fields(asked: Asked) -> bool {
    (0..7).all(|at| asked[at] < if at < 5 { 65_536 } else { 256 })
}

/// By the words of the rule: each book from its first row on, for the numbers asked
/// for and then with scale 0. A number that no field can hold is no row's.
fn number_by_the_words([own, published]: &[Book; 2], wanted: Asked) -> u64 {
    if !fits_its_fields(wanted) {
        return 0;
    }
    let [industry, product, material, process, _, medium, pollutant] = wanted;
    let all_scales = [industry, product, material, process, 0, medium, pollutant];
    let place = |book: &Book, wanted| {
        let place = book.rows.iter().position(|row| asked(key_of(row)) == wanted);
        place.map(|place| place as u64 + 1)
    };
    let of = |book| place(book, wanted).or_else(|| place(book, all_scales));
    of(own).or_else(|| of(published).map(|row| 1024 + row)).unwrap_or(0)
}

/// The bytes of a row as its book was made.
fn bytes_of([own, published]: &[Book; 2], number: u64) -> Vec<u8> {
    let (book, place) = match number {
        0 => return vec![],
        1..=1024 => (own, number - 1),
        _ => (published, number - 1025),
    };
    book.bytes()[16 + book.gaps[0] + 24 * place as usize..][..24].to_vec()
}

fn case_of([own, published]: &[Book; 2], asked: Asked) -> RowCase {
    RowCase::with_room(published.bytes(), asked).with_own(own.bytes())
}

/// Asks both desks, and holds both to the words.
fn look_for(tally: &mut Tally, books: &[Book; 2], asked: Asked) -> u64 {
    let case = case_of(books, asked);
    tally.expect_accepted(&case);
    let Inspected { number, copied } = case.run_proved().expect("the memory around is kept");
    assert_eq!(number, number_by_the_words(books, asked), "{asked:?}");
    assert_eq!(copied.bytes(), bytes_of(books, number), "{asked:?}");
    number
}

fn keys_of(books: &[Book; 2]) -> Vec<Asked> {
    books.iter().flat_map(|book| &book.rows).map(|row| asked(key_of(row))).collect()
}

/// Each own row answers by its key. Of the published ones the first two stand behind
/// the own one for all scales of their place.
#[test]
fn every_row_by_its_key() {
    let mut tally = Tally::new("every_row_by_its_key");
    let books = books();
    let numbers = keys_of(&books).into_iter().map(|key| look_for(&mut tally, &books, key));
    let numbers: Vec<u64> = numbers.collect();
    assert_eq!(numbers, [1, 2, 3, 4, 1, 1, 1027, 1028, 1029, 1030]);
}

const FIELDS: [usize; 7] = [0, 1, 2, 3, 4, 5, 6];

/// One or two fields of a key one below or above.
fn near(key: Asked) -> impl Iterator<Item = Asked> {
    let one = every_two(&FIELDS, &[1, u64::MAX]);
    let another = every_two(&FIELDS, &[0, 1, u64::MAX]);
    every_two(&one, &another).into_iter().map(move |((first, up), (second, also_up))| {
        let mut near = key;
        near[first] = near[first].wrapping_add(up);
        near[second] = near[second].wrapping_add(also_up);
        near
    })
}

#[test]
fn all_keys_around_the_rows() {
    let mut tally = Tally::new("all_keys_around_the_rows");
    let books = books();
    for key in thinned(keys_of(&books).into_iter().flat_map(near).collect()) {
        look_for(&mut tally, &books, key);
    }
}

/// Scales from 0 up to past the largest, at every place of the books.
#[test]
fn every_scale_at_every_place() {
    let mut tally = Tally::new("every_scale_at_every_place");
    let books = books();
    let scales: Vec<u64> = (0..12).chain([255, 256, 65_534, 65_535, 65_536]).collect();
    for (key, scale) in every_two(&keys_of(&books), &scales) {
        let mut other_scale = key;
        other_scale[4] = scale;
        look_for(&mut tally, &books, other_scale);
    }
}

/// The key with a number in one place that the field can't hold; often its low bits
/// are the field's.
fn too_large((key, place): (Asked, usize)) -> impl Iterator<Item = Asked> {
    let width = if place < 5 { 16 } else { 8 };
    let mut numbers: Vec<u64> = (width..64).map(|bit| key[place] | 1 << bit).collect();
    numbers.extend([1 << width, 65_536, u64::MAX, u64::MAX << width, key[place] + (3 << width)]);
    numbers.extend(edges::NUMBERS.into_iter().filter(|number| number >> width != 0));
    numbers.into_iter().map(move |number| {
        let mut too_large = key;
        too_large[place] = number;
        too_large
    })
}

/// No row answers, not even one of scale 0 for a scale that is too large.
#[test]
fn numbers_that_no_field_can_hold() {
    let mut tally = Tally::new("numbers_that_no_field_can_hold");
    let books = books();
    let places = every_two(&keys_of(&books), &FIELDS);
    for asked in thinned(places.into_iter().flat_map(too_large).collect()) {
        assert_eq!(look_for(&mut tally, &books, asked), 0);
    }
}

/// Lent bytes from none to 64, for a row of either book and for no row. Without a row
/// none are needed.
#[test]
fn every_length_of_lent_bytes() {
    let mut tally = Tally::new("every_length_of_lent_bytes");
    let books = books();
    let own = asked(([3240, 1, 1, 1], 2, 1, 1));
    let published = asked(([3240, 1, 1, 1], 3, 2, 1));
    let nowhere = asked(([3240, 1, 1, 3], 0, 1, 1));
    for (asked, room) in every_two(&[own, published, nowhere], &(0..=64).collect::<Vec<_>>()) {
        let case = RowCase { room, ..case_of(&books, asked) };
        let row = bytes_of(&books, number_by_the_words(&books, asked));
        match row.len() <= room {
            true => tally.expect_accepted(&case),
            false => tally.expect_refused(&case, 3, 0),
        }
        let mut expected: Vec<u8> = earlier_bytes(room).collect();
        match expected.get_mut(..row.len()) {
            Some(front) => front.copy_from_slice(&row),
            None => expected.fill(0),
        }
        let inspected = case.run_proved().expect("the memory around is kept");
        assert_eq!(inspected.copied.lent, expected, "{room} bytes");
        assert_eq!(inspected.number, number_by_the_words(&books, asked));
    }
}

/// Empty, cut, out of order, and with a field that is wrong.
fn malformed() -> Vec<Vec<u8>> {
    let [own, published] = books();
    let mut out_of_order = own.clone();
    out_of_order.rows.swap(0, 1);
    let headers = (0..16).map(|length| own.bytes()[..length].to_vec());
    let cut = published.bytes()[..published.bytes().len() - 1].to_vec();
    headers.chain([cut, out_of_order.bytes(), two_kinds::bad_book(), vec![0; 16]]).collect()
}

/// Where either book is malformed no row answers, also one that the other book has;
/// lent bytes keep their values, also where a row would not fit.
#[test]
fn malformed_books() {
    let mut tally = Tally::new("malformed_books");
    let good = books();
    let with_bad: [fn(RowCase, Vec<u8>) -> RowCase; 3] = [
        |case, bad| RowCase { own: bad, ..case },
        |case, bad| RowCase { book: bad, ..case },
        |case, bad| RowCase { own: bad.clone(), book: bad, ..case },
    ];
    let keys = every_two(&keys_of(&good), &[0, 23, 24, 30]);
    for ((key, room), (bad, spoil)) in
        thinned(every_two(&keys, &every_two(&malformed(), &with_bad)))
    {
        let case = spoil(RowCase { room, ..case_of(&good, key) }, bad);
        tally.expect_accepted(&case);
        let Inspected { number, copied } = case.run_proved().expect("the memory around is kept");
        assert_eq!((number, copied.answer), (0, Ok(0)));
        assert!(copied.lent.into_iter().eq(earlier_bytes(room)));
    }
}

/// Books without rows, alone and beside one with rows.
#[test]
fn books_without_rows() {
    let mut tally = Tally::new("books_without_rows");
    let [with_rows, other] = books();
    let none = own::NO_ROWS.clone();
    let with_gaps = Book { gaps: [9, 8, 7], ..none.clone() };
    let pairs = [
        [none.clone(), with_rows.clone()],
        [with_gaps.clone(), with_rows.clone()],
        [with_rows.clone(), none.clone()],
        [other.clone(), with_gaps],
        [none.clone(), none],
        [with_rows.clone(), with_rows],
    ];
    for (books, key) in every_two(&pairs, &keys_of(&[other, books()[0].clone()])) {
        look_for(&mut tally, &books, key);
    }
}

/// A thousand rows and more in each: the first, the last and all between.
#[test]
fn the_longest_books() {
    let mut tally = Tally::new("the_longest_books");
    let rows = |step: u16, digits| {
        let row = |index: u16| Row { scale: 1 + step * index, ..Row::plain(1, 1, digits) };
        Book { rows: (0..1024).map(row).collect(), ..Book::default() }
    };
    let books = [rows(2, 5), rows(3, 6)];
    let mut largest = 0;
    for scale in thinned((0..3080).collect::<Vec<_>>()) {
        let number = look_for(&mut tally, &books, asked(([3240, 1, 1, 1], scale, 1, 1)));
        largest = largest.max(number);
    }
    let last = look_for(&mut tally, &books, asked(([3240, 1, 1, 1], 3 * 1023 + 1, 1, 1)));
    assert_eq!(last, 2048);
    assert!(largest <= last);
    assert_eq!(look_for(&mut tally, &books, asked(([3240, 1, 1, 1], 2047, 1, 1))), 1024);
}

/// The crate's part and plain Rust's are one and the same piece of memory, in the
/// book that answered.
#[test]
fn the_part_lies_in_the_book_that_answered() {
    let books = books();
    let [own, book] = books.each_ref().map(Book::bytes);
    for key in keys_of(&books).into_iter().flat_map(near).filter(|&key| fits_its_fields(key)) {
        let [industry, product, material, process, scale] =
            [0, 1, 2, 3, 4].map(|at| key[at] as u16);
        let (medium, pollutant) = (key[5] as u8, key[6] as u8);
        let key_of_the_crate =
            RowKey { industry, product, material, process, scale, medium, pollutant };
        let part = checkraven::row(&own, &book, &key_of_the_crate);
        let number = number_by_the_words(&books, key);
        assert_eq!(part, bytes_of(&books, number));
        let its_book = if number <= 1024 { &own } else { &book };
        assert!(part.is_empty() || its_book.as_ptr_range().contains(&part.as_ptr()));
        assert!(part.is_empty() || part.as_ptr() == row(&own, &book, key).as_ptr());
    }
}

/// The lent bytes and both books at every address modulo 16.
#[test]
fn every_address() {
    let mut tally = Tally::new("every_address");
    let books = books();
    let key = asked(([65_535, 256, 255, 0], 65_535, 3, 255));
    let number = look_for(&mut tally, &books, key);
    let files = books.each_ref().map(Book::bytes);
    let mut areas = [[0; 512]; 2];
    let mut lent = [0; 80];
    for address in 0..16 {
        let [own_area, book_area] = &mut areas;
        let own = at_address(own_area, &files[0], address);
        let book = at_address(book_area, &files[1], 5 + address);
        let begin = lent.as_ptr().align_offset(16) + address;
        lent.fill(0x5C);
        assert_eq!(face::row(own, book, key, &mut lent[begin..begin + 30]), 24);
        assert_eq!(lent[begin..begin + 24], bytes_of(&books, number));
        let around = lent[..begin].iter().chain(&lent[begin + 24..]);
        assert!(around.copied().all(|byte| byte == 0x5C), "memory around the row is kept");
        assert_eq!(face::row_number(own, book, key), number);
    }
}

/// Of rows asked for in sound books, each of the five answers comes often.
#[test]
fn generated_rows_are_of_all_sorts() {
    let mut random = Random::new(82);
    let most = Size { rows: 12, techniques: 20, lines: 0 };
    let mut answers = [0; 5];
    for _ in 0..2_000 {
        let case = row_case(&mut random, most);
        let row = case.run_plain().number;
        let asked_for = |bytes: &[u8]| u64::from(u16::from_le_bytes([bytes[8], bytes[9]]));
        let room = RowCase { room: 24, ..case.clone() };
        let is_exact = row > 0 && asked_for(&room.run_plain().copied.lent) == case.asked[4];
        answers[match row {
            0 => 0,
            1..=1024 => 1 + usize::from(is_exact),
            _ => 3 + usize::from(is_exact),
        }] += 1;
    }
    assert!(answers.into_iter().all(|count| count > 60), "{answers:?}");
}

/// Units of 10 micrograms per kilogram by a row's bytes: digits and their power.
fn coefficient(row: &[u8]) -> u64 {
    let digits = u32::from_le_bytes(row[16..20].try_into().unwrap());
    let tenfolds = [2, 5, 8][row[13] as usize - 1] - u32::from(row[14]);
    u64::from(digits) * 10u64.pow(tenfolds)
}

/// The row on the screen is the one that a line was worked with: its coefficient
/// times the activity on its basis is what the line generates besides its dust.
#[test]
fn the_screen_tells_the_row_of_the_figures() {
    let mut tally = Tally::new("the_screen_tells_the_row_of_the_figures");
    let mut random = Random::new(83);
    let most = Size { rows: 20, techniques: 20, lines: 6 };
    for _ in 0..limited(8_000) {
        let case = generate::case_up_to(&mut random, most);
        tally.expect_accepted(&case);
        check_lines(&mut tally, &case);
    }
}

fn check_lines(tally: &mut Tally, case: &Case) {
    let filled = run_proved(case).expect("the memory around is kept");
    let lines = case.sheet[u32_at(&case.sheet, 8) as usize..].as_chunks::<64>().0;
    let lines = lines.iter().take(case.line_count());
    for (line, cells) in lines.zip(filled.exact.as_chunks::<5>().0) {
        let screen = on_the_screen(case, line);
        tally.expect_accepted(&screen);
        let row = screen.run_proved().expect("the memory around is kept").copied;
        let at = if row.bytes()[12] == 1 { 16 } else { 24 };
        let activity = u64::from_le_bytes(line[at..at + 8].try_into().unwrap());
        assert_eq!(cells[0] - cells[4], coefficient(row.bytes()) * activity);
    }
}

fn u32_at(file: &[u8], at: usize) -> u32 {
    u32::from_le_bytes(file[at..at + 4].try_into().unwrap())
}

/// The row of a line, asked for by its bytes and those of its sheet's header.
fn on_the_screen(case: &Case, line: &[u8; 64]) -> RowCase {
    let code = |at: usize| u64::from(u16::from_le_bytes([line[at], line[at + 1]]));
    let (medium, pollutant) = (case.sheet[6].into(), case.sheet[7].into());
    let asked = [code(0), code(2), code(4), code(6), code(8), medium, pollutant];
    RowCase::with_room(case.book.clone(), asked).with_own(case.own.clone())
}
