//! Figures: engine, reader and checker of the proved library, beside the independent implementation. No test.
//!
//! Times are processor time, the least of several batches, and what is compared is measured in turn, so that ratios
//! mean something on a machine that does other work too.

mod checker;
mod engine;
mod lent;
mod memory;
mod rivals;

fn main() {
    let arguments: Vec<String> = std::env::args().skip(1).collect();
    if let [word, case, bytes] = &arguments[..] {
        if word == memory::CHILD {
            memory::perform(case, bytes.parse().expect("bytes of stack"));
            return;
        }
    }
    rivals::searches();
    engine::searches();
    engine::several_proofs();
    engine::clearing();
    engine::growth();
    engine::reader();
    checker::proofs();
    checker::hard_texts();
    engine::worst();
    checker::worst();
    memory::figures();
}
