"""Writes the drawn histories of the crate test_histories and the values that the second reading gives them; `check` compares what is there.

Usage: python3 -B tools/second_reading write|check. What is drawn depends on nothing but the numbers below."""

import random
import sys
from pathlib import Path

import answers
import limits
import rows
from drawn import Drawing
from tables import module, spec

CRATE = Path(__file__).resolve().parent.parent.parent / "crates/test_histories"
SEED, SESSIONS, TURNS, IN_A_FILE = 21, 21, 56, 3


def sessions():
    for i in range(SESSIONS):
        side = ("Client", "Server")[i % 2]
        yield Drawing(f"{side}{i // 2 + 1:02}", random.Random(f"{SEED} {i}"), side, TURNS).session()


def files():
    """The text of each file, and how many histories they have."""
    drawn = list(sessions())
    groups = [drawn[i : i + IN_A_FILE] for i in range(0, len(drawn), IN_A_FILE)]
    drawn += limits.sessions()
    groups.append(drawn[-2:])
    made = {"specs/Drawn.antt": "".join(f"pub mod {name}\n" for name in ["Rows", *(session.name for session in drawn)])}
    made |= {f"specs/Drawn/{session.name}.antt": spec(session) for session in drawn}
    made |= {f"src/sessions_{i + 1}.rt": module(group) for i, group in enumerate(groups)}
    made |= {f"proofs/answers/{session.name.lower()}/Answers.antt": answers.proof(session) for session in drawn[:SESSIONS]}
    made["src/answers.rt"] = answers.module(drawn[:SESSIONS])
    made |= rows.files(random.Random(f"{SEED} rows"))
    return made, sum(len(session.turns) for session in drawn)


def main(words):
    made, histories = files()
    if words == ["write"]:
        for path, text in made.items():
            (CRATE / path).parent.mkdir(parents=True, exist_ok=True)
            (CRATE / path).write_text(text)
        print(f"{histories} histories")
        return 0
    wrong = [path for path, text in made.items() if not (CRATE / path).exists() or (CRATE / path).read_text() != text]
    for path in wrong:
        print(f"crates/test_histories/{path} is not what tools/second_reading writes")
    if f"{histories:,} histories" not in (CRATE / "src/lib.rt").read_text():
        print(f"crates/test_histories/src/lib.rt does not say {histories:,} histories")
        return 1
    return int(bool(wrong))


if __name__ == "__main__":
    sys.exit(main(sys.argv[1:]))
