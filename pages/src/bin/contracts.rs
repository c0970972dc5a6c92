//! Holds the contract of every operation and every door to docs/TRUST.md.

use pages::args::{fail, top, Args};
use pages::contracts::{check, described, sources, views, PAGE};
use pages::read;

const HELP: &str = "\
contracts: check that every operation and every door promises what docs/TRUST.md says, and asks nothing of its caller

  --help   this text

The tables of docs/TRUST.md with the columns `operation` (or `form`), `definition` and `contract` are the list. For each row there
must be one public function of that name in crates/*/src, with no type left open. Its clauses must be `ensures` alone, and state exactly the
equations of the row: one for the answer and one for each parameter lent with &mut, the definition's name in each, and that
name imported from the definition's file. The page writes x where the source has `x.now` or `x.old`. Where the code answers a `Result`,
the answer may be seen by a definition, as `as_lines result`, of which crates/answers/proofs/Whole.antt proves that it forgets nothing.

Every door of include/g7231.h must have a row. Its exported function, in the src of one of crates/c_api*_c, must state, in
`ensures` alone,
  result ≡ (E).status
  x.new ≡ lent result x.old (E).part    for each parameter x that it may write, each with a part of its own
E being the right side of the row; `(flag (E).part)` may stand for `(E).part`. What the operation takes whole and the door in parts
stands as a definition of one of the doors' crates over the door's parameters, as `memory syn ..` for mem. A door that the header
has refuse nothing states `result ≡ 0` and `x.new ≡ E`. The function of the same name that the export calls, in the src of one of the
libraries crates/c_api*, must state the same.

Exit status: 0 all hold; 1 one does not, and is told; 2 bad usage.
";

fn main() {
    Args::new(HELP).end();
    let top = top();
    let sources = sources(&top);
    let said = check(&read(&top.join(PAGE)), &described(&top), &sources, &views(&top));
    for fault in &said.faults {
        println!("{fault}");
    }
    println!("{} operations and {} doors: {} faults", said.operations, said.doors, said.faults.len());
    if !said.faults.is_empty() {
        fail("a contract is not what docs/TRUST.md says");
    }
}
