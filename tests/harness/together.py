"""Cases that mostly wait, done beside each other."""
import threading
from concurrent.futures import ThreadPoolExecutor
from functools import partial


class Together:
    """The first case that is asked for starts all of them; each waits for its own result."""

    def __init__(self, cases, jobs):
        self.cases = list(cases)
        self.jobs = jobs
        self.lock = threading.Lock()
        self.results = None

    def _result(self, index, program):
        with self.lock:
            if self.results is None:
                pool = ThreadPoolExecutor(self.jobs)
                self.results = [pool.submit(call, program) for _, call in self.cases]
                pool.shutdown(wait=False)
        return self.results[index].result()

    def __iter__(self):
        for index, (name, _) in enumerate(self.cases):
            yield name, partial(self._result, index)
