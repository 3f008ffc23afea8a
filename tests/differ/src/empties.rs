//! Calls in which a slice is empty, each argument in turn and all at once. In guarded memory each of them is made with
//! every pointer that an empty slice may have; a pointer may be null only where its length is 0, and then it must do.

use crate::books::{self, Kind};
use crate::compare::Function;
use crate::groups::{group, Group};
use runner::draw;
use runner::random::Random;

/// Calls of each function, or more.
pub const TIMES: usize = 60;

/// A room or a length: 0 every other time.
fn often_none(random: &mut Random, most: usize) -> usize {
    if random.once_in(2) {
        0
    } else {
        random.below(most)
    }
}

pub fn all() -> Vec<Group> {
    let mut groups = Vec::new();
    let mut add = |function: Function, draw: crate::groups::Draw| {
        let name = format!("{}: empty slices", function.name());
        groups.push(group(&name, function, draw));
    };
    add(
        Function::CheckBook,
        Box::new(|compare, _, _| {
            for _ in 0..TIMES {
                compare.check_book(&[]);
            }
        }),
    );
    add(
        Function::Compile,
        Box::new(|compare, _, random| {
            for _ in 0..TIMES {
                // Small ones: how large the image would have been is of no account.
                let book = books::book(random, Kind::Tiny).bytes();
                compare.compile(&book, 0);
                compare.compile(&[], often_none(random, 100));
            }
        }),
    );
    add(
        Function::CheckImage,
        Box::new(|compare, _, _| {
            for _ in 0..TIMES {
                compare.check_image(&[]);
            }
        }),
    );
    for function in [Function::Fallback, Function::Level, Function::Mark] {
        add(
            function,
            Box::new(move |compare, _, random| {
                for _ in 0..TIMES {
                    compare.question(function, &[], random.below(3) as u32);
                }
            }),
        );
    }
    for function in [Function::Edge, Function::Step] {
        add(
            function,
            Box::new(move |compare, _, random| {
                for _ in 0..TIMES {
                    compare.with_event(function, &[], random.below(3) as u32, random.byte());
                }
            }),
        );
    }
    add(
        Function::Run,
        Box::new(|compare, pool, random| {
            for _ in 0..TIMES {
                let image = pool.image(random).to_vec();
                let open = oracle::image::open(&image).expect("an image of the pool is accepted");
                let place = random.below(open.place_count());
                let length = often_none(random, 12);
                let log = draw::log(random, &open, place, length);
                let base = *random.pick(&[0, 1, u32::MAX - 11, u32::MAX]);
                compare.run(&image, place as u32, base, &[], often_none(random, 100));
                compare.run(&image, place as u32, base, &log, 0);
                compare.run(&[], place as u32, base, &log, often_none(random, 100));
            }
        }),
    );
    add(
        Function::ShortList,
        Box::new(|compare, _, random| {
            for _ in 0..TIMES {
                let list = random.bytes(8);
                let length = random.below(9);
                compare.short_list(&[], often_none(random, 100));
                compare.short_list(&list[..length], 0);
            }
        }),
    );
    add(
        Function::Part,
        Box::new(|compare, _, random| {
            for _ in 0..TIMES {
                let near = [0, 1, 2, u32::MAX - 1, u32::MAX];
                compare.part(&[], *random.pick(&near), *random.pick(&near), *random.pick(&near));
            }
        }),
    );
    groups
}
