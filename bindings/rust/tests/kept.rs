//! An interface table stays where an ask found or built it, and stays right, whatever links and asks follow.

use lgt_linker::layout::flags::{ABSTRACT, INTERFACE, PUBLIC};
use lgt_linker::*;

const STUBS: [u32; 2] = [901, 902];

fn interface(name: &str, method: &str) -> ClassBuilder {
    ClassBuilder::new(name).flags(PUBLIC | INTERFACE).method_with(method, "()V", PUBLIC | ABSTRACT, 5)
}

/// An interface, a class whose method has no target yet, a generated class that adds a method, and an interface that nothing implements.
fn set() -> (ClassSet, AbiSheet) {
    let grown = ClassBuilder::new("Grown").kind(Kind::Generated).link_state(3).compiler_table(&[8]);
    let classes = [interface("Runnable", "run"), ClassBuilder::new("Task").method("run", "()V", 0), grown, interface("Closeable", "close")];
    let set = classes.into_iter().fold(SetBuilder::new(), SetBuilder::class).build().unwrap();
    (set, AbiBuilder::new().class(AbiClassBuilder::new("Grown").slot("k", "()V", 0)).build().unwrap())
}

#[test]
fn a_table_once_answered_stays_right() {
    let (mut set, abi) = set();
    let mut area = Area::fresh(64);
    set.link(&abi, 1, &mut area, &STUBS).unwrap();
    set.link(&abi, 2, &mut area, &STUBS).unwrap();
    let kept = set.interface_dispatch_table(&abi, 2, 1, &mut area, &STUBS).unwrap();
    assert_eq!((kept, area.words()[8..10].to_vec()), (Asked { place: 8, nodes: 0 }, vec![1, 901]));
    set.link(&abi, 3, &mut area, &STUBS).unwrap();
    set.link(&abi, 4, &mut area, &STUBS).unwrap();
    assert_eq!(set.interface_dispatch_table(&abi, 2, 4, &mut area, &STUBS), Err(Refusal::NoImplementation));
    assert_eq!(set.interface_dispatch_table(&abi, 2, 2, &mut area, &STUBS).map(|asked| asked.nodes), Ok(1));
    // found again, behind the node of the class itself, and what an empty list would get
    assert_eq!(set.interface_dispatch_table(&abi, 2, 1, &mut area, &STUBS), Ok(Asked { place: 8, nodes: 2 }));
    assert_eq!(area.words()[8..10], [1, 901]);
    let mut words = area.words().to_vec();
    words[6] = 0;
    let mut numbers = [0; NUMBERS];
    number_signatures(set.words(), abi.words(), &mut numbers).unwrap();
    let afresh = interface_dispatch_table(set.words(), abi.words(), &numbers, 2, 1, &mut words, &STUBS).unwrap().place as usize;
    assert_eq!(words[afresh..afresh + 2], [1, 901]);
}

/// One class asked for every class: on the last miss all nodes but one are read, and all of them on the way to the first.
#[test]
fn no_more_nodes_are_read_than_there_are_classes() {
    let classes = (1..=64).map(|number| ClassBuilder::new(&format!("C{number}")));
    let mut set = classes.fold(SetBuilder::new(), SetBuilder::class).build().unwrap();
    let abi = AbiBuilder::new().build().unwrap();
    let mut area = Area::fresh(300);
    assert!(set.link_all(&abi, &mut area, &[]).iter().all(Result::is_ok));
    let asked: Vec<u32> =
        (1..=64).map(|interface| set.interface_dispatch_table(&abi, 1, interface, &mut area, &[]).unwrap().nodes).collect();
    assert_eq!(asked, (0..64).collect::<Vec<_>>());
    assert_eq!(set.interface_dispatch_table(&abi, 1, 1, &mut area, &[]).map(|asked| asked.nodes), Ok(64));
}
