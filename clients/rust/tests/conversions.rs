//! Builders of collections of std, whose keys, values and items are owned or borrowed.

use std::borrow::Cow;
use std::collections::{BTreeMap, BTreeSet, HashMap, HashSet};
use std::rc::Rc;
use std::sync::Arc;

use hodkhaki::{AsItem, Builder, Key, Map, SetBuilder, Value, Width};

/// The pairs of a map of texts, which are short and long.
fn texts() -> Vec<(String, u64)> {
    let text = |n: u64| "ä日x".repeat(n as usize % 7) + &n.to_string();
    (0..100).map(|n| (text(n), n << 35)).collect()
}

/// The bytes that a builder builds.
fn bytes<K: Key + ?Sized, V: Value + ?Sized>(builder: Builder<K, V>) -> Vec<u8> {
    builder.build_archive(Width::Narrow).unwrap().into()
}

/// The bytes that a builder of a set builds.
fn set_bytes<K: Key + ?Sized>(builder: SetBuilder<K>) -> Vec<u8> {
    builder.build_archive(Width::Wide).unwrap().into()
}

/// The bytes of pairs that are pushed one after the other.
fn pushed<'p, K, V>(pairs: impl IntoIterator<Item = (&'p K, V::Ref<'p>)>) -> Vec<u8>
where
    K: Key + ?Sized,
    V: Value + ?Sized,
{
    let mut builder = Builder::<K, V>::new();
    for (key, value) in pairs {
        builder.push(key, value);
    }
    bytes(builder)
}

/// Fails the test unless each builder builds the same bytes.
macro_rules! all_build {
    ($wanted:expr; $($builder:expr;)*) => {
        $(assert_eq!(bytes($builder), $wanted);)*
    };
}

#[test]
fn maps_of_std_are_converted_without_type_annotations() {
    let map: HashMap<String, u64> = texts().into_iter().collect();
    let wanted = pushed::<str, u64>(map.iter().map(|(key, value)| (key.as_str(), *value)));
    let annotated: Builder<str, u64> = (&map).into();
    all_build! { wanted;
        Builder::from(&map);
        annotated;
        map.iter().collect::<Builder<_, _>>();
        map.iter().collect::<Builder<str, u64>>();
    }
    assert_eq!(bytes(Builder::from(map.clone())).len(), wanted.len());
    let opened = Map::<str, u64>::open_archive(&wanted, Width::Narrow).unwrap();
    assert_eq!(opened.len(), 100);
    assert!(map
        .iter()
        .all(|(key, value)| opened.get(key) == Some(*value)));
    let copied = opened.iter().collect::<Builder<_, _>>();
    assert_eq!(bytes(copied).len(), wanted.len());

    let texts = texts().into_iter().map(|(key, _)| key);
    let map: BTreeMap<u32, String> = (0..).zip(texts).collect();
    let wanted = pushed::<u32, str>(map.iter().map(|(key, value)| (key, value.as_str())));
    all_build! { wanted;
        Builder::from(&map);
        map.iter().collect::<Builder<_, _>>();
        Builder::from(map);
    }
}

#[test]
fn lists_of_pairs_are_converted() {
    let pairs = texts();
    let wanted = pushed::<str, u64>(pairs.iter().map(|(key, value)| (key.as_str(), *value)));
    let borrowed: Vec<(&str, &u64)> = pairs.iter().map(|(key, value)| (&**key, value)).collect();
    let mut extended = Builder::new();
    extended.extend(&pairs[..30]);
    extended.extend(pairs[30..60].to_vec());
    extended.extend(pairs[60..].iter().map(|(key, value)| (key, value)));
    all_build! { wanted;
        Builder::from(&pairs);
        Builder::from(&pairs[..]);
        Builder::from(pairs.clone());
        pairs.iter().collect::<Builder<_, _>>();
        pairs.iter().cloned().collect::<Builder<_, _>>();
        Builder::from(&borrowed);
        Builder::from(borrowed);
        extended;
    }
    all_build! { pushed::<u32, u32>([(&1, 2), (&3, 4)]);
        Builder::<u32, u32>::from([(1, 2), (3, 4)]);
        Builder::<u32, u32>::from(&[(1, 2), (3, 4)]);
        Builder::from([(1_u32, 2_u32), (3, 4)]);
    }
    let wanted = pushed::<str, str>([("tea", "Tee")]);
    let owned = vec![(String::from("tea"), String::from("Tee"))];
    assert_eq!(bytes(Builder::from(&owned)), wanted);
    let mut extended = Builder::new();
    extended.extend(owned);
    assert_eq!(bytes(extended), wanted);
}

#[test]
fn keys_and_values_are_of_each_type_that_has_them() {
    fn both<Q: AsItem<str>>(text: impl Fn(&'static str) -> Q) -> Builder<str, str> {
        Builder::from([(text("tea"), text("Tee"))])
    }
    let (tea, mut german) = (String::from("tea"), String::from("Tee"));
    all_build! { pushed::<str, str>([("tea", "Tee")]);
        both(|text| text);
        both(String::from);
        both(Box::<str>::from);
        both(Rc::<str>::from);
        both(Arc::<str>::from);
        both(Cow::Borrowed);
        both(|text| Cow::<str>::Owned(text.into()));
        both(|text| Rc::new(String::from(text)));
        Builder::from([(&&tea, &mut german)]);
    }
    all_build! { pushed::<u64, u32>([(&(1 << 40), 7)]);
        Builder::from([(1_u64 << 40, &7_u32)]);
        Builder::from([(&&(1_u64 << 40), Box::new(7_u32))]);
        Builder::from([(Cow::<u64>::Owned(1 << 40), Rc::new(7_u32))]);
    }
    all_build! { pushed::<char, [u8]>([(&'a', &[1, 2][..])]);
        Builder::from([('a', vec![1_u8, 2])]);
        Builder::from([(&'a', [1_u8, 2])]);
        Builder::from([('a', &[1_u8, 2])]);
        Builder::from([('a', Arc::<[u8]>::from(&[1, 2][..]))]);
        Builder::from([('a', Cow::Borrowed(&[1_u8, 2][..]))]);
    }
    all_build! { pushed::<i8, bool>([(&-1, true)]); Builder::from([(-1_i8, &true)]); }
    all_build! { pushed::<i64, f64>([(&-1, 0.5)]); Builder::from(BTreeMap::from([(-1_i64, 0.5_f64)])); }

    let mut builder = Builder::<u64, u32>::new();
    builder.push(1, 2);
    [3].iter().for_each(|key| builder.push(key, 4));
    assert_eq!(format!("{builder:?}"), "{1: 2, 3: 4}");
    let mut builder = Builder::<str, u32>::new();
    let owned = String::from("owned");
    builder.push(&owned, 1);
    builder.push("text", 2);
    builder.push(owned, 3);
    assert_eq!(
        format!("{builder:?}"),
        r#"{"owned": 1, "text": 2, "owned": 3}"#
    );
}

#[test]
fn sets_of_std_are_converted() {
    let set: HashSet<String> = texts().into_iter().map(|(text, _)| text).collect();
    let mut builder = SetBuilder::<str>::new();
    set.iter().for_each(|text| builder.push(text));
    let wanted = set_bytes(builder);
    assert_eq!(set_bytes(SetBuilder::from(&set)), wanted);
    assert_eq!(set_bytes(set.iter().collect::<SetBuilder<_>>()), wanted);
    let listed: Vec<&String> = set.iter().collect();
    assert_eq!(set_bytes(SetBuilder::from(&listed)), wanted);
    assert_eq!(set_bytes(SetBuilder::from(&listed[..])), wanted);
    assert_eq!(set_bytes(SetBuilder::from(listed)), wanted);
    assert_eq!(set_bytes(SetBuilder::from(set)).len(), wanted.len());

    let set = BTreeSet::from([3_u64, 1, 2]);
    let wanted = set_bytes(SetBuilder::<u64>::from([1, 2, 3]));
    assert_eq!(set_bytes(SetBuilder::<u64>::from(&[1, 2, 3])), wanted);
    assert_eq!(set_bytes(SetBuilder::from(&set)), wanted);
    assert_eq!(set_bytes(SetBuilder::from(set)), wanted);
    let mut builder = SetBuilder::<u64>::new();
    builder.push(1);
    builder.extend(&[2, 3]);
    assert_eq!(set_bytes(builder), wanted);
}

/// A builder of borrowed keys and values, in code that is generic over their types.
fn generic<'a, K: Key + ?Sized, V: Value + ?Sized>(pairs: &[(&'a K, &'a V)]) -> [Vec<u8>; 3] {
    let mut builder = Builder::<K, V>::new();
    builder.extend(pairs);
    let built = bytes(builder);
    let opened = Map::<K, V>::open_archive(&built, Width::Narrow).unwrap();
    let copied = opened.iter().collect::<Builder<K, V>>();
    let mut pushed = Builder::<K, V>::new();
    for (key, _) in pairs {
        pushed.push(*key, opened.at(key));
    }
    [bytes(pushed), bytes(copied), built]
}

#[test]
fn generic_code_converts() {
    let [pushed, copied, built] = generic::<str, u64>(&[("tea", &3), ("cake", &4)]);
    assert_eq!((pushed, copied.len()), (built.clone(), built.len()));
    let [pushed, copied, built] = generic::<u32, str>(&[(&3, "tea"), (&4, "cake")]);
    assert_eq!((pushed, copied.len()), (built.clone(), built.len()));
}
