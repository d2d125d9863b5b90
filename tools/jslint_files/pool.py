"""Threads that do pieces of work side by side. (`concurrent.futures` takes longer to import than the program to check a script)"""
import threading


class Pool:
    """Pieces of work, what came of those that are done, and which is next."""

    def __init__(self, work, pieces):
        self.work, self.pieces, self.next, self.came, self.changed = work, pieces, 0, {}, threading.Condition()

    def take(self):
        """The number of the next piece; None where there is none."""
        with self.changed:
            number, self.next = self.next, self.next + 1
        return number if number < len(self.pieces) else None

    def run(self):
        """Does one piece after the other."""
        while (number := self.take()) is not None:
            try:
                came = self.work(self.pieces[number]), None
            except BaseException as error:
                came = None, error
            with self.changed:
                self.came[number] = came
                self.changed.notify()

    def result(self, number):
        with self.changed:
            while number not in self.came:
                self.changed.wait()
            came, error = self.came.pop(number)
        if error is not None:
            raise error
        return came

    def end(self):
        """Nothing more is begun."""
        with self.changed:
            self.next = len(self.pieces)


def in_order(jobs, work, pieces):
    """What `work` gives of each piece, in the order of the pieces, by so many threads. Where the caller ends early nothing more is begun."""
    pool, threads = Pool(work, pieces), []
    try:
        for _ in range(min(jobs, len(pieces))):
            thread = threading.Thread(target=pool.run)
            thread.start()
            threads.append(thread)
        for number in range(len(pieces)):
            yield pool.result(number)
    finally:
        pool.end()
        for it in threads:
            it.join()
