"""Runs the proofs of the toolchain's gate in parallel."""

from concurrent.futures import FIRST_COMPLETED, ThreadPoolExecutor, wait

# The interval of progress reports, in seconds.
NEWS = 30
# The share of the free memory that checks may use; the greatest measured share of `rt ci`'s own estimate that a check
# uses; and the share that each further job adds. A check that is killed for memory is repeated alone on one processor.
MEMORY, SEEN, FURTHER = 0.85, 0.5, 0.3
MOST_JOBS = 4


class Lanes:
    """Runs the tasks of `rt ci` in parallel. The scheduler of that command gives a crate on the longest chain one
    processor even if three are idle."""

    def __init__(self, tasks, processors, memory, progress):
        self.tasks, self.processors, self.memory, self.progress = tasks, processors, MEMORY * memory, progress
        self.chain = self.chains()
        self.left = sorted(tasks, key=lambda it: -self.chain[it])
        self.running, self.given = {}, {}

    def chains(self):
        """Returns how many lines wait for each task, its own among them. A task comes after those that it waits for."""
        chain = {it: 0 for it in self.tasks}
        for key in reversed([*self.tasks]):
            waits, lines = self.tasks[key][:2]
            chain[key] += lines
            for it in waits:
                chain[it] = max(chain[it], chain[key])
        return chain

    def needs(self, key):
        """Returns the memory that the task takes with one job."""
        return SEEN * self.tasks[key][2]

    def is_proof(self, key):
        return key[1] == "proof" or self.tasks[key][1] > 0

    def jobs(self, key, others, idle):
        """Returns the number of jobs of the first task: one for each processor that no other ready task needs, but at
        least two, since all other tasks wait for it."""
        room = self.memory - sum(it for _, it, _ in self.running.values())
        fitting = 1 + int((room / self.needs(key) - 1) / FURTHER)
        return max(1, min(MOST_JOBS, fitting, max(2, idle - others)))

    def start(self, pool):
        """Starts ready tasks as far as processors and memory permit."""
        ready = [it for it in self.left if all(below in self.given for below in self.tasks[it][0])]
        for key in [it for it in ready if not self.is_proof(it)]:
            self.submit(pool, key, 1, 0)
        proofs = [it for it in ready if self.is_proof(it)]
        for at, key in enumerate(proofs):
            idle = self.processors - sum(it for _, _, it in self.running.values())
            room = self.memory - sum(it for _, it, _ in self.running.values())
            if idle > 0 and (self.needs(key) <= room or not any(it for _, _, it in self.running.values())):
                jobs = self.jobs(key, len(proofs) - 1, idle) if at == 0 else 1
                self.progress.begins(key, jobs)
                self.submit(pool, key, jobs, jobs)

    def submit(self, pool, key, jobs, taken):
        self.left.remove(key)
        needs = self.needs(key) * (1 + FURTHER * (jobs - 1)) if taken else 0
        self.running[pool.submit(self.tasks[key][3], self.given, jobs)] = key, needs, taken

    def run(self):
        with ThreadPoolExecutor(2 * self.processors + 2) as pool:
            while self.left or self.running:
                self.start(pool)
                ended = wait(self.running, timeout=NEWS, return_when=FIRST_COMPLETED).done
                if not ended:
                    self.progress.still([key for key, _, _ in self.running.values()])
                for it in ended:
                    key = self.running.pop(it)[0]
                    self.given[key] = it.result()
                    self.progress.ends(key, self.given[key])
        return self.given
