//! Answers a script of calls by upstream's collections, one line a call: what `crates/test_replay` must answer too.
//! A line is `FORM CALL WORD..`; a text is one word. `tools/make_replay` writes the script and stores the answers.
use elsa::index_map::FrozenIndexMap;
use elsa::index_set::FrozenIndexSet;
use elsa::map::{FrozenBTreeMap, FrozenMap};
use elsa::sync::LockFreeFrozenVec;
use elsa::vec::FrozenVec;
use std::io::{self, BufRead, Write};
use std::sync::Arc;

#[derive(Default)]
struct Forms {
    vec: FrozenVec<String>,
    map: FrozenMap<u64, String>,
    tree: FrozenBTreeMap<u64, String>,
    index_map: FrozenIndexMap<Box<u64>, String>,
    index_set: FrozenIndexSet<String>,
    locked_map: elsa::sync::FrozenMap<u64, Arc<String>>,
    locked_tree: elsa::sync::FrozenBTreeMap<u64, Arc<String>>,
    locked_vec: elsa::sync::FrozenVec<Arc<String>>,
    free: LockFreeFrozenVec<u64>,
}

fn shown<T: std::fmt::Display>(answer: Option<T>) -> String {
    answer.map_or("none".to_owned(), |value| value.to_string())
}

fn found(answer: Result<usize, usize>) -> String {
    match answer {
        Ok(place) => format!("at {place}"),
        Err(place) => format!("before {place}"),
    }
}

fn number(words: &[&str], place: usize) -> u64 {
    words[place].parse().expect("a number")
}

fn vec(form: &FrozenVec<String>, words: &[&str]) -> Option<String> {
    Some(match words[1] {
        "push" => {
            form.push(words[2].to_owned());
            "done".to_owned()
        }
        "push_get" => form.push_get(words[2].to_owned()).to_owned(),
        "get" => shown(form.get(number(words, 2) as usize)),
        "first" => shown(form.first()),
        "last" => shown(form.last()),
        "len" => form.len().to_string(),
        "is_empty" => form.is_empty().to_string(),
        "search" => found(form.binary_search(words[2])),
        "search_length" => {
            let length = number(words, 2) as usize;
            found(form.binary_search_by_key(&length, |text| text.len()))
        }
        "shorter" => {
            let length = number(words, 2) as usize;
            form.partition_point(|text| text.len() < length).to_string()
        }
        "all" => form.iter().collect::<Vec<_>>().join(" "),
        _ => return None,
    })
}

fn map(form: &FrozenMap<u64, String>, words: &[&str]) -> Option<String> {
    Some(match words[1] {
        "insert" => form.insert(number(words, 2), words[3].to_owned()).to_owned(),
        "get" => shown(form.get(&number(words, 2))),
        "length_at" => shown(form.map_get(&number(words, 2), |text| text.len())),
        "len" => form.len().to_string(),
        "is_empty" => form.is_empty().to_string(),
        _ => return None,
    })
}

fn tree(form: &FrozenBTreeMap<u64, String>, words: &[&str]) -> Option<String> {
    Some(match words[1] {
        "insert" => form.insert(number(words, 2), words[3].to_owned()).to_owned(),
        "get" => shown(form.get(&number(words, 2))),
        "length_at" => shown(form.map_get(&number(words, 2), |text| text.len())),
        "len" => form.len().to_string(),
        "is_empty" => form.is_empty().to_string(),
        "pairs" => form.clone().into_tuple_vec().iter().map(|(key, text)| format!("{key}={text}")).collect::<Vec<_>>().join(" "),
        _ => return None,
    })
}

fn index_map(form: &FrozenIndexMap<Box<u64>, String>, words: &[&str]) -> Option<String> {
    Some(match words[1] {
        "insert" => form.insert(Box::new(number(words, 2)), words[3].to_owned()).to_owned(),
        "insert_full" => {
            let (place, text) = form.insert_full(Box::new(number(words, 2)), words[3].to_owned());
            format!("{place} {text}")
        }
        "get" => shown(form.get(&number(words, 2))),
        "get_index_of" => shown(form.get_index_of(&number(words, 2))),
        "get_index" => shown(form.get_index(number(words, 2) as usize).map(|(key, text)| format!("{key}={text}"))),
        "get_full" => shown(form.get_full(&number(words, 2)).map(|(place, key, text)| format!("{place} {key}={text}"))),
        "is_empty" => form.is_empty().to_string(),
        "pairs" => form.clone().into_tuple_vec().iter().map(|(key, text)| format!("{key}={text}")).collect::<Vec<_>>().join(" "),
        _ => return None,
    })
}

fn index_set(form: &FrozenIndexSet<String>, words: &[&str]) -> Option<String> {
    Some(match words[1] {
        "insert" => form.insert(words[2].to_owned()).to_owned(),
        "insert_full" => {
            let (place, text) = form.insert_full(words[2].to_owned());
            format!("{place} {text}")
        }
        "get" => shown(form.get(words[2])),
        "get_index_of" => shown(form.get_index_of(words[2])),
        "get_index" => shown(form.get_index(number(words, 2) as usize)),
        "get_full" => shown(form.get_full(words[2]).map(|(place, text)| format!("{place} {text}"))),
        _ => return None,
    })
}

fn locked(forms: &Forms, words: &[&str]) -> Option<String> {
    Some(match (words[0], words[1]) {
        ("locked_map", "insert") => forms.locked_map.insert(number(words, 2), Arc::new(words[3].to_owned())).to_string(),
        ("locked_map", "get") => shown(forms.locked_map.get(&number(words, 2))),
        ("locked_map", "len") => forms.locked_map.len().to_string(),
        ("locked_tree", "insert") => forms.locked_tree.insert(number(words, 2), Arc::new(words[3].to_owned())).to_string(),
        ("locked_tree", "get") => shown(forms.locked_tree.get(&number(words, 2))),
        ("locked_tree", "len") => forms.locked_tree.len().to_string(),
        ("locked_vec", "push_get_index") => forms.locked_vec.push_get_index(Arc::new(words[2].to_owned())).to_string(),
        ("locked_vec", "get") => shown(forms.locked_vec.get(number(words, 2) as usize)),
        ("locked_vec", "len") => forms.locked_vec.len().to_string(),
        ("free", "push") => forms.free.push(number(words, 2)).to_string(),
        ("free", "get") => shown(forms.free.get(number(words, 2) as usize)),
        ("free", "len") => forms.free.len().to_string(),
        _ => return None,
    })
}

fn main() -> io::Result<()> {
    let forms = Forms::default();
    let mut output = io::stdout().lock();
    for line in io::stdin().lock().lines() {
        let line = line?;
        let words: Vec<&str> = line.split(' ').collect();
        let answer = match words[0] {
            "vec" => vec(&forms.vec, &words),
            "map" => map(&forms.map, &words),
            "tree" => tree(&forms.tree, &words),
            "index_map" => index_map(&forms.index_map, &words),
            "index_set" => index_set(&forms.index_set, &words),
            _ => locked(&forms, &words),
        };
        writeln!(output, "{}", answer.unwrap_or_else(|| format!("no such call: {line}")))?;
    }
    Ok(())
}
