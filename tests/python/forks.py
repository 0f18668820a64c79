"""Mailmaps in a forked process whose parent has threads that use them."""
import os
import signal
import sys
import threading
import traceback
import unittest
import warnings

import gix_mailmap
from gix_mailmap import Mailmap
from threads import JANE, MANY, MAP, Ending

# newer versions of Python warn about forks with threads
warnings.simplefilter("ignore", DeprecationWarning)


def status_of(work):
    """The status of a forked process that runs `work`. If it hangs, a signal ends it."""
    child = os.fork()
    if child:
        return os.waitstatus_to_exitcode(os.waitpid(child, 0)[1])
    signal.alarm(60)
    try:
        work()
        os._exit(0)
    except BaseException:
        traceback.print_exc()
    finally:
        os._exit(1)


class Forks(Ending):
    def busy(self, *works):
        """Starts a thread for each function, which calls it again and again until the end of the test."""
        done = threading.Event()

        def again(work):
            while not done.is_set():
                work()

        threads = [threading.Thread(target=again, args=(work,)) for work in works]
        for thread in threads:
            thread.start()
            self.addCleanup(thread.join)
        self.addCleanup(done.set)

    def test_what_other_threads_look_up(self):
        maps = [Mailmap(MAP) for _ in range(4)]

        def use():
            for mailmap in maps:
                self.assertEqual(mailmap.lookup("jd", "jd@y"), JANE)
                self.assertEqual(list(mailmap.map_contacts(["jd <jd@y>"])), ["Jane Doe <jane@x>"])
                mailmap.add("JD <jd@y>")
                self.assertEqual(mailmap.lookup("jd", "jd@y").name, "JD")
                mailmap.close()

        self.busy(*[lambda mailmap=mailmap: mailmap.lookup("jd", "jd@y") for mailmap in maps * 2])
        for _ in range(20):
            self.assertEqual(status_of(use), 0)

    def test_what_another_thread_changes(self):
        """The child has the mailmap as it was before or after an `add`."""
        mailmap = Mailmap(MAP)

        def add():
            mailmap.add(MANY)
            mailmap.add("".join(f"<m{number}@x> <o{number}@y>\n" for number in range(20_000)))

        def use():
            entries = mailmap.entries()
            self.assertIn(len(entries), (1, 20_001))
            self.assertEqual(len({(entry.new_email or "")[:1] for entry in entries[1:]}), min(len(entries) - 1, 1))

        self.busy(add)
        for _ in range(10):
            self.assertEqual(status_of(use), 0)

    def test_mailmaps_that_other_threads_open(self):
        """The child has each mailmap as it was before or after an `add`."""
        self.addCleanup(sys.setswitchinterval, sys.getswitchinterval())
        sys.setswitchinterval(1e-5)
        opened = [Mailmap(MAP) for _ in range(3)]

        def open_one(index):
            opened[index] = Mailmap(MAP)
            opened[index].add("".join(f"<m{number}@x> <o{number}@y>\n" for number in range(200)))

        def use():
            for mailmap in opened:
                self.assertIn(len(mailmap.entries()), (1, 201))
                self.assertEqual(mailmap.lookup("jd", "jd@y"), JANE)

        self.busy(*[lambda index=index: open_one(index) for index in range(3)])
        for _ in range(60):
            self.assertEqual(status_of(use), 0)

    def test_a_contact_that_another_thread_streams(self):
        mailmap = Mailmap(MAP)
        answers = mailmap.map_contacts(iter(lambda: "jd <jd@y>", None))
        self.busy(lambda: next(answers))
        use = lambda: self.assertEqual(next(mailmap.map_contacts(["jd <jd@y>"])), "Jane Doe <jane@x>")
        for _ in range(10):
            self.assertEqual(status_of(use), 0)

    def test_calls_of_texts_by_another_thread(self):
        """One of the calls may be running when the child begins."""
        contacts = "".join(f"a <o{number}@y>\n" for number in range(20_000))
        wanted = gix_mailmap.check(MANY, contacts)
        self.busy(*[lambda: gix_mailmap.check(MANY, contacts)] * 2)
        for _ in range(10):
            self.assertEqual(status_of(lambda: self.assertEqual(gix_mailmap.check(MANY, contacts), wanted)), 0)

    def test_a_fork_in_a_call(self):
        class Forking:
            def read(self):
                statuses.append(status_of(lambda: use(mailmap.add("JD <jd@y>"))))
                return "JD <jd@y>"

        def use(_added):
            self.assertEqual(mailmap.lookup("jd", "jd@y").name, "JD")

        mailmap, statuses = Mailmap(MAP), []
        use(mailmap.add(Forking()))
        self.assertEqual(statuses, [0])

    def test_many_forks_at_a_time(self):
        mailmap = Mailmap(MAP)
        statuses = []
        use = lambda: self.assertEqual(mailmap.lookup("jd", "jd@y"), JANE)
        threads = [threading.Thread(target=lambda: statuses.append(status_of(use))) for _ in range(10)]
        for thread in threads:
            thread.start()
        for thread in threads:
            thread.join()
        self.assertEqual(statuses, [0] * 10)
        use()


if __name__ == "__main__":
    unittest.main()
