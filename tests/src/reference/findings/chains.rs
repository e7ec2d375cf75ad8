//! Findings 11 to 14: the publishers' chains.

use super::publishers::Publisher;
use super::Transaction;

/// The publishers by their sequence number, wherever they stand; without two
/// digits they are in no chain. Only chains with a record.
fn chains<'a>(transaction: &'a Transaction) -> Vec<Vec<&'a Publisher<'a>>> {
    let mut chains = vec![Vec::new(); 100];
    for publisher in &transaction.publishers {
        if let Some(number) = publisher.sequence() {
            chains[number as usize].push(publisher);
        }
    }
    chains.retain(|chain| !chain.is_empty());
    chains
}

/// Its first record in the transaction is an SPU, of any type.
fn begun_by_spu(chain: &[&Publisher]) -> bool {
    chain[0].is_spu()
}

/// T17: two or more original publishers in one chain.
pub fn finding_11(transaction: &Transaction) -> bool {
    let several = |chain: &Vec<&Publisher>| {
        let e = chain.iter().filter(|publisher| publisher.kind() == b"E ");
        e.count() > 1
    };
    chains(transaction).iter().any(several)
}

/// T25: in a chain of the submitter's, none of the SPUs that may own does own.
pub fn finding_12(transaction: &Transaction) -> bool {
    let nothing = |chain: &Vec<&Publisher>| {
        let counts = |publisher: &&&Publisher| publisher.is_spu() && publisher.may_own();
        let mut counting = chain.iter().filter(counts);
        begun_by_spu(chain) && counting.all(|publisher| publisher.shares == [0; 3])
    };
    chains(transaction).iter().any(nothing)
}

/// T16: somebody else's publisher in a chain of the submitter's.
pub fn finding_13(transaction: &Transaction) -> bool {
    let mixed = |chain: &Vec<&Publisher>| {
        begun_by_spu(chain) && chain.iter().any(|publisher| !publisher.is_spu())
    };
    chains(transaction).iter().any(mixed)
}

/// T26: an SPU that acquires what an E before it in the chain still owns.
pub fn finding_14(transaction: &Transaction) -> bool {
    let owned_before = |chain: &Vec<&Publisher>| {
        let mut owned = false;
        for publisher in chain {
            if owned && publisher.is_spu() && publisher.kind() == b"AQ" {
                return true;
            }
            owned |= publisher.kind() == b"E " && publisher.shares != [0; 3];
        }
        false
    };
    chains(transaction).iter().any(owned_before)
}
