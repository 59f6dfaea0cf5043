"""Copies of a crate in which few functions have their own bodies. A function is proved against the contracts of those that it calls, so how
these are done does not matter: the body of every other function is replaced by a call that never returns, since it relies on a foreign
function with a false promise. Such a body meets any contract at once."""

import shutil
from pathlib import Path

from edits import with_pieces
from kit import root_file

TEXT = """unsafe extern "C" {
    safe fn falsity() -> u8
        ensures { ⊥ };
}

pub fn never_returns() -> ! {
    let _ = falsity();
    unreachable!()
}
"""
BODY = "{ crate::stand_in::never_returns() }"
BY_HAND = ("Answers.antt", "Invariants.antt", "Proof.antt")


def make_copy(copy, sources, staying, pieces):
    """Makes a copy of a crate with these pieces in its files, in which others stand in for all functions but those that are staying.
    What proved their bodies by hand goes with these."""
    shutil.copytree(sources.folder, copy, ignore=shutil.ignore_patterns("out", "must-fail"), dirs_exist_ok=True)
    for file, text in sources.texts.items():
        own = [piece for at, piece in pieces if at == file]
        others = [(it.opens, it.end, BODY) for it in sources.functions[file] if it not in staying]
        Path(copy, file).write_text(with_pieces(text, own + others), "utf-8")
    # A check of a program links it with all that it reaches; so a copy is a library.
    root = Path(copy, root_file(copy))
    root.write_text(root.read_text("utf-8").replace("\nfn main(", "\nfn main_of_the_program(") + "\nmod stand_in;\n", "utf-8")
    Path(copy, "src/stand_in.rt").write_text(TEXT, "utf-8")
    kept = [Path(copy, "proofs", it) for function in staying for it in sources.proofs(function)]
    for path in Path(copy, "proofs").rglob("*.antt"):
        if path.name in BY_HAND and not any(it in path.parents for it in kept):
            path.unlink()
