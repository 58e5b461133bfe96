// Each call of clippy.toml once. rust/lines/planted puts this below the last line of a written file of the maps.
use ::alloc::borrow::ToOwned;
use ::alloc::collections::VecDeque as Queue;
use ::alloc::string::ToString;

fn of_lists(mut list: Vec<u8>, mut more: Vec<u8>) {
    more.append(&mut list);
    Vec::extend_from_slice(&mut list, &more);
    list.extend_from_within(..);
    list.insert(0, 1);
    list.push(1);
    list.reserve(1);
    list.reserve_exact(1);
    list.resize(9, 0);
    list.resize_with(9, u8::default);
    list.shrink_to(1);
    list.shrink_to_fit();
    list.splice(..1, [2, 3]);
    list.split_off(1);
    list.into_boxed_slice();
    Vec::<u8>::with_capacity(1);
}

fn of_slices(list: &mut [u8], lists: &[&[u8]]) {
    lists.concat();
    lists.join(&0);
    list.repeat(2);
    list.sort();
    list.sort_by(|a, b| a.cmp(b));
    list.sort_by_cached_key(|it| *it);
    list.sort_by_key(|it| *it);
    list.to_vec();
}

fn of_queues(mut list: Queue<u8>, mut more: Queue<u8>) {
    list.append(&mut more);
    list.insert(0, 1);
    list.push_back(1);
    list.push_front(1);
    list.reserve(1);
    list.reserve_exact(1);
    list.resize(9, 0);
    list.resize_with(9, u8::default);
    list.shrink_to(1);
    list.shrink_to_fit();
    list.split_off(0);
    Queue::<u8>::with_capacity(1);
}

fn of_boxes() {
    ::alloc::boxed::Box::new(1);
    ::alloc::boxed::Box::pin(1);
    ::alloc::rc::Rc::new(1);
    ::alloc::sync::Arc::new(1);
}

fn of_texts(mut text: String, other: &str) {
    text.insert(0, 'a');
    text.insert_str(0, other);
    text.push('a');
    text.push_str(other);
    text.reserve(1);
    text.reserve_exact(1);
    text.shrink_to(1);
    text.shrink_to_fit();
    String::with_capacity(1);
    1.to_string();
    other.to_owned();
}

fn of_iterators(mut list: Vec<u8>) {
    list.extend([1]);
    let list: Vec<u8> = list.into_iter().collect();
    let (low, high): (Vec<u8>, Vec<u8>) = list.into_iter().partition(|it| *it < 9);
    let (low, high): (Vec<u8>, Vec<u8>) = low.into_iter().zip(high).unzip();
    core::mem::forget((low, high));
}

fn of_a_later_version(mut list: Vec<u8>) {
    list.pop_if(|it| *it == 1);
}
