"""A batch runner's night: jobs join, ask for devices, wait until the bank lends them, and leave."""
from __future__ import annotations

from parbegin import Answer, Bank

Request = tuple[int, list[int]]


def serve(bank: Bank, requests: list[Request]) -> list[Request]:
    """Asks for each request, and returns those that wait."""
    waiting = []
    for job, amounts in requests:
        answer = bank.ask(job, amounts)
        if answer is Answer.GRANTED:
            print(f"job {job} gets {amounts}")
        elif answer is Answer.OVER_CLAIM:
            print(f"job {job} never gets {amounts}")
        else:
            print(f"job {job} waits for {amounts}")
            reason = bank.why(job, amounts)
            if reason.kind == "rest":
                print("  else these could not finish:", list(reason.jobs))
            waiting.append((job, amounts))
    return waiting


def main() -> None:
    with Bank([1, 1]) as bank:
        for claims in ([1, 1], [1, 1], [1, 0]):
            print("job", bank.join(claims), "joins")
        # Two jobs need the same tape and the same disk in opposite order; a third is greedy.
        waiting = serve(bank, [(1, [0, 1]), (0, [1, 0]), (1, [1, 0]), (0, [0, 1]), (2, [2, 0])])
        for job in bank.order():
            bank.leave(job)
            print("job", job, "ends")
            waiting = serve(bank, waiting)


if __name__ == "__main__":
    main()
