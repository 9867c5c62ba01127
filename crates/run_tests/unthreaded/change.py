"""Changes how workers run in a copy of the repository: change.py RUN TOP. As change.py look TOP it changes nothing, and sees that each
change would find its text."""

import sys
from pathlib import Path

ON_CALLER = "bsp_machine::run_plain(alloc, verified, map, terms.workers, input, terms.bound)?"
AS_IT_IS = "    run_code(rt, alloc, code, map, input, terms, kept, gate)\n"

RUNS = {
    # the workers take turns on the caller's thread
    "on_one_thread": [
        ("run.rt", AS_IT_IS, f"""    let _unused = (rt, code, kept, gate);
    let found = {ON_CALLER};
    Ok((found.0, Some(found.1)))
"""),
    ],
    # so they do, and then threads cross as often as that run has exchanges
    "beside_empty_rows": [
        ("run.rt", AS_IT_IS, f"""    let found = {ON_CALLER};
    let empty = Terms {{
        workers: terms.workers,
        bound: found.1.len() as u32,
        reserve: None,
    }};
    let _empty = run_code(rt, alloc, code, map, input, empty, kept, gate);
    Ok((found.0, Some(found.1)))
"""),
        ("run.rt", "        Some(ended) => gather(code, map, turnstile, seats, ended, end_room),\n", """        Some(_ended) => {
            let _room = end_room;
            turnstile.close(seats);
            Err(RunRefusal::OutOfMemory)
        }
"""),
        ("play.rt", "    'exchanges: while !worker.is_over() {\n", "    'exchanges: for _ in 0..bound {\n"),
        ("play.rt", """    let mut hand = RowHand { seat };
    worker.until_exchange(code, rule, map, bound, &mut hand);
    let RowHand { seat } = hand;
    let column = ColumnHand::of(turnstile.cross(rt, seat), map.modules() as usize);
    worker.receive(code, rule, map, bound, &column);
    turnstile.turn(rt, column.seat)
""", """    let _unused = (code, rule, map, bound, worker);
    turnstile.turn(rt, turnstile.cross(rt, seat))
"""),
    ],
}


def changed(text, name, old, new):
    if text.count(old) != 1:
        sys.exit(f"{name} hasn't this text once: {old}")
    return text.replace(old, new)


def change(run, source):
    """The files that a run changes, with their new texts."""
    texts = {}
    for name, old, new in RUNS[run]:
        texts[name] = changed(texts.get(name) or (source / name).read_text(), name, old, new)
    return texts


def main():
    run, top = sys.argv[1:]
    source = Path(top) / "crates/workers/src"
    if run == "look":
        for it in RUNS:
            change(it, source)
        return
    for name, text in change(run, source).items():
        (source / name).write_text(text)


main()
