//! Sizes, offsets and indices at the ends of their types: each call returns an error or the worked rows, and none panics.

use sel::{collect_rows, flatten, Column, Error, View};

const MOST_ROWS: usize = 4_294_967_295;

fn numbers() -> Column {
    Column::from_values(&[1i64, 2, 3]).expect("three numbers")
}

fn lists() -> Column {
    Column::lists(&[0, 2, 2, 3], numbers()).expect("three lists")
}

fn fixed() -> Column {
    Column::fixed_lists(1, 3, numbers()).expect("three fixed-size lists")
}

fn text(column: Result<Column, Error>) -> String {
    column.and_then(|column| column.to_text()).expect("rows")
}

#[test]
fn slices_past_the_end_are_out_of_bounds() {
    let whole = numbers();
    let wrong = [
        (usize::MAX, usize::MAX),
        (usize::MAX, 1),
        (usize::MAX, 0),
        (1, usize::MAX),
        (0, usize::MAX),
        (3, 1),
        (4, 0),
        (2, usize::MAX - 1),
        (usize::MAX - 1, 2),
    ];
    for (offset, len) in wrong {
        assert_eq!(whole.sliced(offset, len).err(), Some(Error::OutOfBounds(6)), "{offset} {len}");
    }
    assert_eq!(text(whole.sliced(3, 0)), "[]");
}

#[test]
fn fixed_size_lists_of_extreme_sizes_are_errors() {
    let wrong = [
        (usize::MAX, usize::MAX, 19),
        (0, usize::MAX, 19),
        (1, MOST_ROWS + 1, 19),
        (usize::MAX, 0, 21),
        (usize::MAX, 1, 21),
        (MOST_ROWS + 1, 1, 21),
        (MOST_ROWS, MOST_ROWS, 23),
        (MOST_ROWS, 1, 23),
        (usize::MAX / 2 + 1, 2, 21),
    ];
    for (size, len, status) in wrong {
        assert_eq!(Column::fixed_lists(size, len, numbers()).err(), Some(Error::Malformed(status)), "{size} {len}");
    }
}

#[test]
fn struct_values_of_extreme_lengths_are_errors() {
    for len in [usize::MAX, MOST_ROWS + 1] {
        assert_eq!(Column::tuples(len, vec![]).err(), Some(Error::Malformed(19)), "{len}");
        assert_eq!(Column::tuples(len, vec![numbers()]).err(), Some(Error::Malformed(19)), "{len}");
    }
    assert_eq!(Column::tuples(MOST_ROWS, vec![numbers()]).err(), Some(Error::Malformed(24)));
}

#[test]
fn extreme_offsets_are_errors() {
    let wrong: [(&[i64], u32); 8] = [
        (&[], 16),
        (&[i64::MIN], 17),
        (&[-1, 0], 17),
        (&[i64::MIN, i64::MAX], 17),
        (&[0, i64::MIN], 17),
        (&[i64::MAX, 0], 18),
        (&[i64::MAX], 22),
        (&[0, i64::MAX, i64::MAX], 22),
    ];
    for (offsets, status) in wrong {
        assert_eq!(Column::lists(offsets, numbers()).err(), Some(Error::Malformed(status)), "{offsets:?}");
        assert_eq!(Column::new_binary(offsets, b"abc", None).err(), Some(Error::Malformed(status)), "{offsets:?}");
    }
}

#[test]
fn extreme_list_indices_give_nulls() {
    let lists = lists();
    for index in [i64::MIN, i64::MIN + 1, -3, 2, i64::MAX - 1, i64::MAX] {
        assert_eq!(text(lists.list_get(index)), "[null,null,null]", "{index}");
        assert_eq!(lists.list_index_is_oob(index), Ok(true), "{index}");
    }
    assert_eq!(text(lists.list_get(-2)), "[1,null,null]");
}

#[test]
fn extreme_indices_of_fixed_size_lists_are_out_of_bounds_or_give_nulls() {
    let fixed = fixed();
    for index in [i64::MIN, i64::MIN + 1, -2, 1, i64::MAX] {
        assert_eq!(fixed.fixed_size_list_get(index, false).err(), Some(Error::OutOfBounds(7)), "{index}");
        assert_eq!(text(fixed.fixed_size_list_get(index, true)), "[null,null,null]", "{index}");
    }
}

#[test]
fn extreme_row_numbers_are_out_of_bounds() {
    let indices = Column::from_values(&[0, u32::MAX]).expect("two indices");
    assert_eq!(numbers().take(&indices).err(), Some(Error::OutOfBounds(6)));
    let whole = numbers();
    for pick in [(0, u32::MAX), (u32::MAX, 0), (u32::MAX, u32::MAX), (1, 0), (0, 3)] {
        assert_eq!(collect_rows(&[&whole], &[Some(pick)]).err(), Some(Error::OutOfBounds(6)), "{pick:?}");
    }
    assert_eq!(collect_rows(&[], &[None]).err(), Some(Error::WrongArgument(5)));
}

#[test]
fn extreme_widths_and_heights_are_errors() {
    let (one, two) = (Column::from_values(&[7i64]).expect("one row"), numbers());
    let wrong: [(&[&Column], &[usize], usize); 9] = [
        (&[], &[], usize::MAX),
        (&[&one], &[], usize::MAX),
        (&[&one], &[0], usize::MAX),
        (&[&two], &[1], usize::MAX),
        (&[&two], &[usize::MAX], 1),
        (&[&two], &[usize::MAX], usize::MAX),
        (&[&two], &[usize::MAX / 2 + 1], 2),
        (&[&one, &two], &[usize::MAX, usize::MAX], usize::MAX),
        (&[&one, &two], &[1, usize::MAX / 3 + 2], 3),
    ];
    for (columns, widths, height) in wrong {
        assert_eq!(flatten(columns, widths, height).err(), Some(Error::WrongArgument(5)), "{widths:?} {height}");
    }
    for height in [usize::MAX, MOST_ROWS + 1] {
        assert_eq!(flatten(&[&one], &[1], height).err(), Some(Error::Limit(8)), "{height}");
    }
}

#[test]
fn fields_past_the_last_are_out_of_bounds() {
    let pairs = Column::tuples(3, vec![numbers(), numbers()]).expect("three struct values");
    for field in [2, 3, usize::MAX] {
        assert_eq!(pairs.field(field).err(), Some(Error::OutOfBounds(6)), "{field}");
    }
}

#[test]
fn a_text_with_extreme_numbers_does_not_fit() {
    assert_eq!(
        text(Column::parse("i64", "[-9223372036854775808,9223372036854775807]")),
        "[-9223372036854775808,9223372036854775807]"
    );
    assert_eq!(Column::parse("i64", "[9223372036854775808]").err(), Some(Error::Text { status: 34, at: 1 }));
    assert_eq!(Column::parse("fixed<18446744073709551615,i8>", "[]").err(), Some(Error::Limit(35)));
}

#[test]
fn extreme_numbers_of_nulls_are_errors() {
    for len in [usize::MAX, MOST_ROWS + 1] {
        assert_eq!(Column::new_null(len).err(), Some(Error::Malformed(19)), "{len}");
    }
    let most = Column::new_null(MOST_ROWS).expect("a column of nulls has no buffers");
    assert_eq!((most.len(), most.null_count()), (MOST_ROWS, MOST_ROWS));
    assert_eq!(most.to_options::<i64>().err(), Some(Error::WrongArgument(3)));
    assert_eq!(most.views().err(), Some(Error::WrongArgument(3)));
    assert_eq!(Column::lists(&[0, i64::MAX], most).err(), Some(Error::Malformed(22)));
}

#[test]
fn lists_of_extreme_sizes_without_memory_are_read() {
    let empty = Column::fixed_lists(0, MOST_ROWS, Column::new_null(0).expect("no nulls")).expect("empty lists");
    assert_eq!((empty.len(), empty.list_size(), empty.null_count()), (MOST_ROWS, Ok(0), 0));
    assert_eq!(empty.fixed_size_list_get(i64::MIN, false).err(), Some(Error::OutOfBounds(7)));
    assert_eq!(text(empty.slice(MOST_ROWS - 1, 1)), "[[]]");
    let longest = Column::new_null(MOST_ROWS).and_then(|child| Column::fixed_lists(MOST_ROWS, 1, child));
    assert_eq!(longest.and_then(|column| column.list_size()), Ok(MOST_ROWS));
}

#[test]
fn masks_of_extreme_lengths_are_errors() {
    for (mask, len) in [(&[0xff; 1][..], usize::MAX), (&[], usize::MAX), (&[], 3), (&[0xff], 2), (&[0xff], 9)] {
        assert_eq!(numbers().filter_bits(mask, len).err(), Some(Error::WrongArgument(5)), "{len}");
    }
    assert_eq!(text(numbers().filter_bits(&[0b1111_1110, 0xff], 3)), "[2,3]");
}

#[test]
fn extreme_indices_to_take_are_out_of_bounds() {
    for index in [3, u32::MAX] {
        assert_eq!(numbers().take_rows(&[Some(0), Some(index)]).err(), Some(Error::OutOfBounds(6)), "{index}");
    }
}

#[test]
fn extreme_indices_for_each_fixed_size_list_are_out_of_bounds_or_give_nulls() {
    let fixed = fixed();
    for index in [i64::MIN, i64::MIN + 1, -2, 1, i64::MAX] {
        let indices = Column::from_values(&[0, -1, index]).expect("three indices");
        assert_eq!(fixed.fixed_size_list_get_each(&indices, false).err(), Some(Error::OutOfBounds(7)), "{index}");
        assert_eq!(text(fixed.fixed_size_list_get_each(&indices, true)), "[1,2,null]", "{index}");
    }
}

#[test]
fn views_with_extreme_parts_are_errors() {
    let prefix = u32::from_le_bytes(*b"some");
    let (bytes, max) = (b"some bytes of text", u32::MAX);
    for (length, buffer, offset) in [(max, 0, 0), (max, max, max), (13, 0, max), (13, 1, 0), (13, max, 0), (18, 0, 1)] {
        let view = View { length, prefix, buffer, offset };
        for validity in [None, Some(&[true][..]), Some(&[false][..])] {
            assert_eq!(
                Column::new_string_view(&[view], &[bytes], validity).err(),
                Some(Error::Malformed(26)),
                "{view:?}"
            );
            assert_eq!(
                Column::new_binary_view(&[view], &[bytes], validity).err(),
                Some(Error::Malformed(26)),
                "{view:?}"
            );
        }
    }
}

#[test]
fn validities_of_another_length_are_errors() {
    let wrong_length = Some(Error::Malformed(25));
    for validity in [&[][..], &[true; 2], &[true; 4], &[true; 100]] {
        let given = Some(validity);
        assert_eq!(Column::from_values_with_validity(&[1u8, 2, 3], validity).err(), wrong_length);
        assert_eq!(Column::from_values_with_validity(&[true, false, true], validity).err(), wrong_length);
        assert_eq!(Column::from_values_with_validity(&["a", "b", "c"], validity).err(), wrong_length);
        assert_eq!(Column::new_list(&[0, 1, 2, 3], numbers(), given).err(), wrong_length);
        assert_eq!(Column::new_binary(&[0, 1, 2, 3], b"abc", given).err(), wrong_length);
        assert_eq!(Column::new_fixed_size_list(1, 3, numbers(), given).err(), wrong_length);
        assert_eq!(Column::new_struct(3, vec![numbers()], given).err(), wrong_length);
        assert_eq!(Column::new_string_view(&[View::default(); 3], &[], given).err(), wrong_length);
    }
    assert_eq!(Column::new_list(&[0], numbers(), Some(&[true])).err(), wrong_length);
    assert_eq!(Column::new_struct(0, vec![], Some(&[true])).err(), wrong_length);
    assert_eq!(Column::new_list(&[], numbers(), Some(&[true])).err(), Some(Error::Malformed(16)));
    assert_eq!(Column::new_struct(usize::MAX, vec![], Some(&[])).err(), wrong_length);
}
